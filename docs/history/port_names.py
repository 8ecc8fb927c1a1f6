#!/usr/bin/env python3
"""Brings the repository's own definitions and lemmas to the spelling of today's Rattle, once, after port.py.

usage: python3 docs/history/port_names.py [FOLDER]      (FOLDER is the top of the checkout; it is the working folder where none is given)

What it does, in this order:
  - the crate hex, whose name is one of the kit's libraries, becomes hexadecimal: folder, crates.txt, paths and calls;
  - in every .antt file, in the clauses and ghost lines of every .rt file, and in must-fail edits, each name of TABLE gets its new
    spelling: functions, lemmas and fields in snake case, facts in camel case without dashes;
  - a lemma that would have its function's name gets _lem (FIRST).
Constructors keep their capitals, as the variants of the Rust enums that they stand for. Functions of src/, strings, inputs and outputs
are not touched. Names that Rattle makes (goals, steps) are not in TABLE.
"""
import os
import re
import sys

# In these files a lemma had the name that a definition gets: it goes out of the way first.
FIRST = {"crates/calls/proofs/Locals.antt": {"gives_up": "gives_up_lem"}}

TABLE = """
    Answered-after-cancel AnsweredAfterCancel
    Answered-twice AnsweredTwice
    Enters-at EntersAt
    Run-law RunLaw
    Runs-compose RunsCompose
    Runs-on RunsOn
    Tried-in-vain TriedInVain
    Tried-on-another TriedOnAnother
    above-busy above_busy
    accept-still accept_still
    ackAndBye ack_and_bye
    acked-balanced acked_balanced
    admitted-if-free admitted_if_free
    after-release after_release
    after-seize after_seize
    afterEnding after_ending
    afterEntering after_entering
    afterOccupying after_occupying
    afterVacating after_vacating
    again-seizes again_seizes
    again-some again_some
    all-further all_further
    all-idle all_idle
    allDigits all_digits
    allWithin all_within
    answered-after-cancel answered_after_cancel
    answered-balanced answered_balanced
    answered-fits answered_fits
    answered-twice answered_twice
    answeringSetup answering_setup
    answers-sip answers_sip
    answersFrom answers_from
    answersSetup answers_setup
    any-was-idle AnyWasIdle
    as-event as_event
    asRead as_read
    asked-now asked_now
    at-lawful at_lawful
    at-opening at_opening
    atCall at_call
    awaits-not awaits_not
    awaitsResponse awaits_response
    badAt bad_at
    badReference bad_reference
    bearerOctets bearer_octets
    begins-balanced begins_balanced
    begins-lawful begins_lawful
    begins-seizes begins_seizes
    beginsCollecting begins_collecting
    beginsProceeding begins_proceeding
    bufferAfter buffer_after
    busy-more busy_more
    busyCause busy_cause
    by-news by_news
    by-status by_status
    by-test by_test
    by-times by_times
    by-wish by_wish
    byAwaitedNumber by_awaited_number
    byLiveNumber by_live_number
    byNumber by_number
    byReference by_reference
    byTransaction by_transaction
    byeAt bye_at
    byeIn bye_in
    byes-sip byes_sip
    callOn call_on
    calls-stand calls_stand
    callsOut calls_out
    callsOut-lawful calls_out_lawful
    cancel-expiry-still cancel_expiry_still
    cancel-rules cancel_rules
    cancels-sip cancels_sip
    cause-self cause_self
    causeFits cause_fits
    causeFor cause_for
    causeOctets cause_octets
    causeOf cause_of
    causeRows cause_rows
    changes-at changes_at
    channel-noted channel_noted
    channel-self channel_self
    channelFits channel_fits
    channelFound channel_found
    channelFrom channel_from
    channelOctets channel_octets
    channelOf channel_of
    cleared-fits cleared_fits
    cleared-seizes-none cleared_seizes_none
    clears-law clears_law
    clears-sip clears_sip_lem
    clears-still clears_still
    clearsExchange clears_exchange
    clearsFrom clears_from
    clearsSip clears_sip
    closed-up closed_up
    code-final code_final
    collect-fits collect_fits
    collect-law collect_law
    collect-still collect_still
    collecting-balanced collecting_balanced
    comes-up comes_up
    completeOctets complete_octets
    connect-law connect_law
    connects-were-asked connects_were_asked
    connectsIn connects_in
    connectsSent connects_sent
    countedCause counted_cause
    declined-balanced declined_balanced
    dial-out dial_out
    dial-refused dial_refused
    dials-lawful dials_lawful
    different-more different_more
    digitOf digit_of
    digits-self digits_self
    digitsFit digits_fit
    digitsOctets digits_octets
    digitsOf digits_of
    digitsPlace digits_place
    disconnect-written disconnect_written
    driven-more driven_more
    either-still either_still
    elementAnswer element_answer
    elementBuffer element_buffer
    elementOctets element_octets
    elements-back elements_back
    ended-cases ended_cases
    ends-cancel ends_cancel
    ends-clear ends_clear
    ends-keep ends_keep
    ends-law ends_law
    enters-at enters_at
    enters-law enters_law
    eventOf event_of
    events-more events_more
    everywhere-at everywhere_at
    everywhere-none everywhere_none
    everywhere-set everywhere_set
    exchange-places exchange_places_lent
    exchange-queue exchange_queue
    exchange-sent-in-order exchange_sent_in_order
    exchange-takes exchange_takes
    exchangeGone exchange_gone
    exchangeMoveOf exchange_move_of
    exchangePlaces exchange_places
    exchangeSent exchange_sent
    exchangeTaken exchange_taken
    expectedCause expected_cause
    expectedStatus expected_status
    expiry-rules expiry_rules
    expiry-still expiry_still
    fair-choice fair_choice
    fair-pick fair_pick
    fair-place fair_place
    final-failure final_failure
    finalsIn finals_in
    finalsSent finals_sent
    first-number first_number
    firstFit first_fit
    fitting-answer fitting_answer
    fitting-buffer fitting_buffer
    flag-back flag_back
    flag-self flag_self
    found-live found_live
    foundOf found_of
    freed-one freed_one
    fresh-invite fresh_invite
    from-to from_to
    full-length full_length
    full-refused full_refused
    gathered-inside gathered_inside
    gathered-le gathered_le
    gathered-push gathered_push
    givesUp gives_up
    gone-linked gone_linked
    gone-present gone_present
    gone-sound gone_sound
    gone-sum gone_sum
    handed-back handed_back
    head-back head_back
    head-eq head_eq
    headOctets head_octets
    heard-lawful heard_lawful
    heardDigits heard_digits
    held-as held_as
    held-is-seized held_is_seized
    held-seized held_seized
    holds-over holds_over
    holdsDialogue holds_dialogue
    holdsFrom holds_from
    idle-from idle_from
    idle-is idle_is
    idleOrder idle_order
    in-range in_range
    in-room in_room
    inRing in_ring
    inv-laws inv_laws
    invite-lawful invite_lawful
    invite-new invite_new
    invite-refused invite_refused
    invite-while-proceeding invite_while_proceeding
    inviteCall invite_call
    inviteRefusal invite_refusal
    invited-balanced invited_balanced
    invites-balance invites_balance
    invites-sip invites_sip
    invitesTaken invites_taken
    inviting-le inviting_le
    isBlank is_blank
    isCancelSent is_cancel_sent
    isDigit is_digit
    isEmptyWhole is_empty_whole
    isFinal is_final
    isFree is_free
    isGone is_gone
    isHeldBy is_held_by
    isHolding is_holding
    isIn is_in
    isInviteSent is_invite_sent
    isNamed is_named
    isNoSip is_no_sip
    isNothing is_nothing
    isReleaseComplete is_release_complete
    isRemark is_remark
    isRepeated is_repeated
    isRoomy is_roomy
    isRunning is_running
    isSetup is_setup
    isSound is_sound
    isSoundAt is_sound_at
    isStatus is_status
    isTimer is_timer
    isTooMany is_too_many
    isUnanswered is_unanswered
    isUnavailable is_unavailable
    isUncleared is_uncleared
    isUnended is_unended
    isUnreleased is_unreleased
    isUpOn is_up_on
    isVacant is_vacant
    keeps-law keeps_law
    lastDialogue last_dialogue
    later-finds later_finds
    layout-examples layout_examples
    leave-still leave_still
    leavesFrom leaves_from
    left-fits left_fits
    lessExchange less_exchange
    lessSip less_sip
    link-asked link_asked
    link-side link_side
    live-by live_by
    locationOf location_of
    may-over may_over
    mayConnect may_connect
    mayConnectFrom may_connect_from
    mayHold MayHold
    message-lawful message_lawful
    moved-balanced moved_balanced
    moved-one moved_one
    moved-owing moved_owing
    moved-talks moved_talks
    movedCall moved_call
    new-number new_number
    new-to new_to
    newsOf news_of
    no-cons no_cons
    no-invite no_invite
    no-reference no_reference
    no-sip no_sip
    none-or-one none_or_one
    none-there none_there
    not-different not_different
    not-gone not_gone
    not-idle not_idle
    not-seized not_seized
    not-too-many not_too_many
    not-true not_true
    noted-inside noted_inside
    now-idle now_idle
    now-seized now_seized
    number-back number_back
    octetsFrom octets_from
    octetsIn octets_in
    octetsOf octets_of
    off-fits off_fits
    offs-sip offs_sip
    ok-lawful ok_lawful
    ok-still ok_still
    okAt ok_at
    old-linked old_linked
    old-number old_number
    oldest-leaves oldest_leaves
    on-accept on_accept
    on-bye on_bye
    on-cancel on_cancel
    on-cancel-expiry on_cancel_expiry_lem
    on-expiry on_expiry_lem
    on-fail on_fail
    on-link on_link
    on-progress on_progress
    on-provisional on_provisional
    on-timer on_timer_lem
    on-type on_type_lem
    onCall on_call
    onCancelExpiry on_cancel_expiry
    onExpiry on_expiry
    onHeard on_heard
    onInvite on_invite
    onLeave on_leave
    onMessage on_message
    onOk on_ok
    onOther on_other
    onReport on_report
    onResponse on_response
    onSetup on_setup
    onTimer on_timer
    onType on_type
    once-small once_small
    one-holder one_holder
    one-if one_if
    one-owing one_owing
    only-still only_still
    other-keeps other_keeps
    other-rules other_rules
    outcomeOf outcome_of
    over-fits over_fits
    over-the-pool over_the_pool
    owes-itself owes_itself
    owes-misses owes_misses
    owes-off owes_off
    owesFrom owes_from
    owing-one owing_one
    past-bearer past_bearer
    past-cause past_cause
    past-channel past_channel
    past-complete past_complete
    past-digits past_digits
    past-element past_element
    past-progress past_progress
    past-release past_release
    past-the-link past_the_link
    pick-below pick_below
    placeAfter place_after
    placeFits place_fits
    pool-free pool_free
    pool-none pool_none
    pool-one pool_one
    pool-shows pool_shows
    possible-at possible_at
    possible-step possible_step
    proceed-law proceed_law
    proceeding-balanced proceeding_balanced
    proceeding-on-seven proceeding_on_seven
    proceeds-while-out proceeds_while_out
    progress-self progress_self
    progress-still progress_still
    progressFits progress_fits
    progressNews progress_news
    progressOctets progress_octets
    progressOf progress_of
    provisional-still provisional_still
    put-elsewhere put_elsewhere
    put-there put_there
    putExchange put_exchange
    putSip put_sip
    ran-more ran_more
    ran-none ran_none
    read-inside read_inside
    read-so read_so
    ready-again ready_again
    ready-begins ready_begins
    ready-invited ready_invited
    ready-kept ready_kept
    referenceFits reference_fits
    referenceOf reference_of
    refusalOf refusal_of
    refused-by refused_by
    rejects-lawful rejects_lawful
    release-granted release_granted
    release-refused release_refused
    released-again released_again
    removed-without removed_without
    replied-talks replied_talks
    responded-fits responded_fits
    responded-stays-fits responded_stays_fits
    responds-lawful responds_lawful
    respondsFrom responds_from
    response-lawful response_lawful
    response-still response_still
    rest-length rest_length
    retold-fits retold_fits
    retold-sip retold_sip
    retried-type retried_type
    retries-law retries_law
    ring-around ring_around
    ring-first ring_first
    ring-length ring_length
    ring-next ring_next
    ring-still ring_still
    roomed-lawful roomed_lawful
    rulingOf ruling_of
    run-inv run_inv
    run-law run_law
    run-laws run_laws
    running-stage running_stage
    runs-compose runs_compose
    same-again same_again
    same-fewer same_fewer
    same-further same_further
    same-room same_room
    sameCause same_cause
    sameChannel same_channel
    sameDigits same_digits
    sameFlag same_flag
    sameProgress same_progress
    sameRecord same_record
    sameReference same_reference
    sameStatus same_status
    seats-lawful seats_lawful
    seek-first seek_first
    seek-never seek_never
    seek-tells seek_tells
    seekHere seek_here
    seenDigits seen_digits
    seenElements seen_elements
    seenHeader seen_header
    seenItem seen_item
    seenMessage seen_message
    seenNoted seen_noted
    seenPart seen_part
    seenRecord seen_record
    seized-from seized_from
    seized-held seized_held
    seized-is-held seized_is_held
    seized-move seized_move
    seizedOnes seized_ones
    seizure-granted seizure_granted
    seizure-refused seizure_refused
    seizures-balance seizures_balance
    sendsOne sends_one
    sentCause sent_cause
    set-over set_over
    setup-begins setup_begins
    setup-lawful setup_lawful
    setup-read setup_read
    setup-written setup_written
    setup417Octets setup417_octets
    setup417Read setup417_read
    setup41Octets setup41_octets
    setupCall setup_call
    setupOn setup_on
    setupsTaken setups_taken
    seven-alone seven_alone
    seven-and-nine seven_and_nine
    sip-places sip_places_lent
    sip-queue sip_queue
    sip-sent-in-order sip_sent_in_order
    sip-takes sip_takes
    sipGone sip_gone
    sipMoveOf sip_move_of
    sipPlaces sip_places
    sipSent sip_sent
    sipStage sip_stage
    sipTaken sip_taken
    some-octets some_octets
    sound-at sound_at
    sound-call sound_call
    sound-everywhere sound_everywhere
    sound-here sound_here
    sound-reference sound_reference
    sound-set sound_set
    sound-tested sound_tested
    spoken-balanced spoken_balanced
    spurned-fits spurned_fits
    stageOf stage_of
    statusFits status_fits
    statusOf status_of
    statusRows status_rows
    stays-law stays_law
    sumOf-at sum_of_at
    sumOf-le sum_of_le
    sumOf-none sum_of_none
    sumOf-set sum_of_set
    tail-eq tail_eq
    take-cons take_cons
    take-first take_first
    taken-by taken_by
    taken-one taken_one
    takesAny takes_any
    takesAny-lawful takes_any_lawful
    talks-keeps talks_keeps
    talks-off talks_off
    talksCall talks_call
    tellCause tell_cause
    tellProgress tell_progress
    tells-sip tells_sip
    there There
    timer-still timer_still
    timerName timer_name
    timerOf timer_of
    times-append times_append
    times-at times_at
    times-parts times_parts
    times-without times_without
    tokenOf token_of
    took-exchange took_exchange
    took-sip took_sip
    tried-in-vain tried_in_vain
    tried-on-another tried_on_another
    tries-again tries_again_lem
    triesAgain tries_again
    turn-past turn_past
    turn-whole turn_whole
    turned-away turned_away_lem
    turned-still turned_still
    turnedAway turned_away
    two-more two_more
    type-back type_back
    type-rules type_rules
    type-still type_still
    uncalled-lawful uncalled_lawful
    unended-is-held unended_is_held
    unlessGone unless_gone
    unlessSeen unless_seen
    unpicked-type unpicked_type
    unseized-clears unseized_clears
    verdictOn verdict_on
    waits-last waits_last
    wantsAnother wants_another
    was-idle was_idle
    wishes-lawful wishes_lawful
    with-place with_place
    withCause with_cause
    withChannel with_channel
    withComplete with_complete
    withDigits with_digits
    withPool with_pool
    withProgress with_progress
    without-none without_none
"""

WORD = re.compile(r"[^\s(){}\[\]|.;,:=↦→λ∷×⌜⌝«»\"`]+")


def respell(text, names):
    return WORD.sub(lambda m: names.get(m.group(0), m.group(0)), text)


def antt(text, names):
    """Comments keep their words."""
    lines = []
    for line in text.split("\n"):
        lines.append(line if line.lstrip().startswith("--") else respell(line, names))
    return "\n".join(lines)


def rt(text, names):
    """Ghost lines and clauses alone: from `ghost`, `requires` or `ensures` to the end of the line, or of its braces."""
    lines, depth = [], 0
    for line in text.split("\n"):
        bare = line.strip()
        begins = re.match(r"(pub )?(ghost|requires|ensures)\b", bare)
        if depth > 0 or begins:
            lines.append(respell(line, names))
            depth = max(0, depth + line.count("{") - line.count("}"))
        else:
            lines.append(line)
    return "\n".join(lines)


def edit(text, names):
    """An edit of specs/ or proofs/ is antt; one of src/ has clauses at most."""
    of_antt = re.search(r"^file: .*\.antt$", text, re.M)
    return antt(text, names) if of_antt else rt(text, names)


def files(top):
    for folder, dirs, names in os.walk(os.path.join(top, "crates")):
        dirs[:] = sorted(d for d in dirs if d != "out")
        for name in sorted(names):
            yield os.path.join(folder, name)


def rename_hex(top):
    old, new = os.path.join(top, "crates", "hex"), os.path.join(top, "crates", "hexadecimal")
    if os.path.isdir(old):
        os.rename(old, new)
    listed = os.path.join(top, "crates.txt")
    with open(listed, encoding="utf-8") as f:
        text = f.read()
    with open(listed, "w", encoding="utf-8") as f:
        f.write(re.sub(r"\bhex\b", "hexadecimal", text))
    for path in files(top):
        if path.endswith((".rt", ".antt", ".edit")):
            with open(path, encoding="utf-8") as f:
                text = f.read()
            turned = re.sub(r"\bhex::", "hexadecimal::", text).replace("Rattle.hex.", "Rattle.hexadecimal.")
            if turned != text:
                with open(path, "w", encoding="utf-8") as f:
                    f.write(turned)


def main():
    top = sys.argv[1] if len(sys.argv) > 1 else "."
    rename_hex(top)
    names = dict(row.split() for row in TABLE.split("\n") if row.strip())
    turn = {".antt": antt, ".rt": rt, ".edit": edit}
    for path in files(top):
        ending = os.path.splitext(path)[1]
        if ending not in turn:
            continue
        with open(path, encoding="utf-8") as f:
            text = f.read()
        first = FIRST.get(os.path.relpath(path, top).replace(os.sep, "/"))
        turned = turn[ending](antt(text, first) if first else text, names)
        if turned != text:
            with open(path, "w", encoding="utf-8") as f:
                f.write(turned)


main()
