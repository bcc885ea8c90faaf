#!/usr/bin/env python3
"""Brings the names that this repository defines in specs/ and proofs/ to one spelling: types in camel case, all else in snake case.

usage: python3 tools/respell.py    at the top of the repository

Each line of NAMES is an old name and its new one. They are replaced in the .antt files, and in the .rt files outside comments and
strings. Functions of src/, strings, inputs and outputs keep their names.
"""

import os
import re

NAMES = """
All-sound AllSound
Calls-after CallsAfter
Chosen-marks ChosenMarks
Hears-bench HearsBench
Hears-here HearsHere
Laid-lower LaidLower
Marked-lower MarkedLower
Misses-bench MissesBench
Misses-here MissesHere
Names-channel NamesChannel
Names-kind NamesKind
Reads-opening ReadsOpening
Restarts-bench RestartsBench
Restarts-here RestartsHere
Same-below SameBelow
Steals-bench StealsBench
Stolen-replied StolenReplied
Whole-bursts WholeBursts
Worked-examples WorkedExamples
all-below all_below
all-below-more all_below_more
all-bits all_bits
all-fit-none all_fit_none
all-fit-tells all_fit_tells
all-written all_written
all-written-more all_written_more
answer-cheapest answer_cheapest
answer-closes answer_closes
answer-due answer_due
answer-least answer_least
answer-length answer_length
answer-line answer_line
answer-own answer_own
answered-longer answered_longer
arrived-some arrived_some
as-sent as_sent
back-all back_all
back-short back_short
bcch-1 bcch_1
bcch-423 bcch_423
bcch-8 bcch_8
bcch-terms bcch_terms
begins-within begins_within
bench-answer bench_answer
bench-asked bench_asked
bench-code bench_code
bench-cost bench_cost
bench-line bench_line
bench-met bench_met
bench-path bench_path
bench-terms bench_terms
bit-of bit_of
bit-of-odd bit_of_odd
bit-set bit_set
bits-empty bits_empty
bits-end bits_end
bits-length bits_length
bits-more bits_more
bits-older bits_older
broken-first broken_first
burst-of burst_of
burst-within burst_within
by-halves by_halves
by-lowest by_lowest
by-oldest by_oldest
by-path by_path
by-rule by_rule
by-tables by_tables
by-test by_test
byte-bit byte_bit
byte-not byte_not
cell-within cell_within
cells-after cells_after
cells-first cells_first
cells-next cells_next
channel-byte channel_byte
chosen-step chosen_step
clean-byte clean_byte
clean-level clean_level
coded-bit coded_bit
coded-bits coded_bits
coded-of coded_of
column-held column_held
cost-due cost_due
cost-kept cost_kept
cost-of cost_of
cost-of-kept cost_of_kept
count-all count_all
count-before count_before
count-figures count_figures
count-grown count_grown
count-lifted count_lifted
counted-or counted_or
counts-answer counts_answer
counts-heard counts_heard
counts-ones counts_ones
counts-zeros counts_zeros
covered-entries covered_entries
data-1 data_1
data-647 data_647
data24-masks data24_masks
data24-terms data24_terms
data96-masks data96_masks
data96-terms data96_terms
differ-xor differ_xor
drop-parts drop_parts
due-fit due_fit
due-same due_same
empty-register empty_register
end-flat end_flat
end-long end_long
end-width end_width
erased-fit erased_fit
extended-from extended_from
extended-meets extended_meets
extended-some extended_some
fault-written fault_written
fewer-before fewer_before
fifth-code fifth_code
figures-end figures_end
figures-more figures_more
filled-up filled_up
first-four first_four
first-from first_from
first-none first_none
first-tells first_tells
fit-more fit_more
five-twice five_twice
flat-long flat_long
flat-short flat_short
form-stays form_stays
found-long found_long
front-bits front_bits
front-remainder front_remainder
front-short front_short
generator-clears generator_clears
getD-entered get_or_entered
getD-entered-none get_or_entered_none
getD-register get_or_register
gives-end gives_end
gives-fault gives_fault
going-after going_after
going-begun going_begun
grown-by grown_by
grown-by-keeps grown_by_keeps
grown-rows grown_rows
grown-rows-keeps grown_rows_keeps
grown-rows-same grown_rows_same
grown-sent grown_sent
grown-unsent grown_unsent
half-below half_below
half-code half_code
half-register half_register
hear-guarded hear_guarded
hear-guards hear_guards
hear-rules hear_rules
heard-more heard_more
heard-of heard_of
held-within held_within
in-bursts in_bursts
in-ring in_ring
in-ring-fit in_ring_fit
interleaved-from interleaved_from
interleaved-laws interleaved_laws
interleaved-line interleaved_line
judged-invariant judged_invariant
judged-sound judged_sound
judges-refused judges_refused
judges-taken judges_taken
keeps-more keeps_more
keeps-none keeps_none
kept-bits kept_bits
kept-first kept_first
kept-ones kept_ones
kept-pattern kept_pattern
kept-place kept_place
kept-times kept_times
kept-within kept_within
kind-byte kind_byte
laid-after laid_after
laid-at laid_at
laid-before laid_before
laid-coded laid_coded
laid-cost laid_cost
laid-first laid_first
laid-inside laid_inside
laid-lower laid_lower
laid-place laid_place
laid-sent laid_sent
laid-suited laid_suited
later-register later_register
laws-of laws_of
laying-line laying_line
leb-after leb_after
leb-div leb_div
left-memory left_memory
left-room left_room
left-with left_with
length-bits length_bits
length-column length_column
length-columns length_columns
length-entered length_entered
length-pattern length_pattern
length-times length_times
lengths-suit lengths_suit
lent-end lent_end
lent-masks lent_masks
lent-on lent_on
lifted-kept lifted_kept
line-suits line_suits
mark-bit mark_bit
mark-kept mark_kept
marked-same marked_same
marks-more marks_more
marks-next marks_next
mask-0 mask_0
mask-1 mask_1
mask-2 mask_2
mask-3 mask_3
mask-4 mask_4
mask-5 mask_5
mask-laws mask_laws
mask-line mask_line
masks-suit masks_suit
may-stand may_stand
memory-few memory_few
memory-rules memory_rules
met-fit met_fit
met-on met_on
met-same met_same
min-bits min_bits
miss-guarded miss_guarded
miss-guards miss_guards
miss-rules miss_rules
moved-onto moved_onto
moved-within moved_within
needed-enough needed_enough
next-keeps next_keeps
next-meets next_meets
no-dearer no_dearer
none-some none_some
none-without-register none_without_register
not-refused not_refused
number-clocked number_clocked
number-half number_half
number-low number_low
number-take number_take
numbered-apart numbered_apart
numbered-ended numbered_ended
numbered-filled numbered_filled
numbered-from numbered_from
numbered-in-turns numbered_in_turns
numbered-left numbered_left
numbered-off numbered_off
numbered-ones numbered_ones
numbered-past numbered_past
numbered-past-ones numbered_past_ones
numbered-past-turns numbered_past_turns
numbered-right numbered_right
numbered-times numbered_times
odd-add odd_add
odd-bits odd_bits
odd-more odd_more
odd-ones-summed odd_ones_summed
on-rest on_rest
only-wrong only_wrong
open-rules open_rules
opened-line opened_line
opening-stands opening_stands
own-i own_i
own-n own_n
packed-below packed_below
packed-shift packed_shift
past-middles past_middles
past-prefix past_prefix
pattern-of pattern_of
period-narrow period_narrow
played-end played_end
played-fault played_fault
played-record played_record
playing-after playing_after
playing-begun playing_begun
playing-done playing_done
playing-fault playing_fault
punctured-laws punctured_laws
put-laid put_laid
raised-none raised_none
raised-twice raised_twice
ranked-ceiling ranked_ceiling
ranked-figures ranked_figures
ranked-form ranked_form
ranked-grown ranked_grown
ranked-laid ranked_laid
ranked-le ranked_le
ranked-lifted ranked_lifted
ranks-answer ranks_answer
ranks-ones ranks_ones
ranks-zeros ranks_zeros
read-bit read_bit
read-fit read_fit
ready-paths ready_paths
refusal-line refusal_line
refused-counting refused_counting
register-back register_back
register-back-below register_back_below
register-bits register_bits
register-closed register_closed
register-empty register_empty
register-length register_length
register-less register_less
register-more register_more
register-take register_take
registers-few registers_few
remainder-more remainder_more
remainder-none remainder_none
remainders-differ remainders_differ
replied-counts replied_counts
replied-here replied_here
replied-refuses replied_refuses
replied-timely replied_timely
replied-waits replied_waits
report-line report_line
report-of report_of
rest-is rest_is
restarted-line restarted_line
row-after row_after
row-exact row_exact
rows-left-more rows_left_more
rows-over rows_over
samples-in samples_in
scrambled-from scrambled_from
scrambled-laws scrambled_laws
scrambled-line scrambled_line
scrambled-whole-laws scrambled_whole_laws
some-memory some_memory
some-none some_none
sound-end sound_end
sound-middle sound_middle
sound-parts sound_parts
sound-period sound_period
sound-row sound_row
sound-rows sound_rows
sound-tables sound_tables
source-column source_column
source-of-spread source_of_spread
source-within source_within
spelling-some spelling_some
spread-of-source spread_of_source
spread-within spread_within
steps-within steps_within
stolen-line stolen_line
stolen-reply stolen_reply
stolen-rules stolen_rules
stored-own stored_own
strips-fit strips_fit
strips-long strips_long
strips-pattern strips_pattern
summed-chosen summed_chosen
summed-none summed_none
summed-register summed_register
survivor-from survivor_from
survivor-length survivor_length
survivor-register survivor_register
take-bits take_bits
take-reverse take_reverse
taken-best taken_best
taken-counting taken_counting
taken-keeps taken_keeps
taps-below taps_below
tells-message tells_message
times-over times_over
told-block told_block
told-wrong told_wrong
turn-fits turn_fits
turn-within turn_within
turns-some turns_some
unless-none unless_none
unless-tells unless_tells
unpunctured-laws unpunctured_laws
unpunctured-line unpunctured_line
upper-half upper_half
upper-odd upper_odd
values-at values_at
waits-only waits_only
weighed-fit weighed_fit
weighed-same weighed_same
whole-at whole_at
whole-laws whole_laws
whole-rows whole_rows
window-cost window_cost
window-first window_first
window-grown window_grown
window-kept window_kept
window-other window_other
window-second window_second
window-written window_written
words-at words_at
xor-false xor_false
"""

TABLE = dict(line.split() for line in NAMES.split("\n") if line.strip())
# a name ends where one of these stands, or white space
WORD = re.compile(r"[^\s(){}\[\].,;:\"`@|]+")
SPARED = re.compile(r'//[^\n]*|"(?:[^"\\]|\\.)*"', re.S)


def respelt(text):
    return WORD.sub(lambda m: TABLE.get(m.group(0), m.group(0)), text)


def respelt_source(text):
    parts, at = [], 0
    for spared in SPARED.finditer(text):
        parts += [respelt(text[at:spared.start()]), spared.group(0)]
        at = spared.end()
    return "".join(parts) + respelt(text[at:])


def main():
    for folder, dirs, files in os.walk("crates"):
        dirs[:] = [d for d in dirs if d != "out"]
        for name in files:
            turn = respelt if name.endswith(".antt") else respelt_source if name.endswith(".rt") else None
            if turn is None:
                continue
            path = os.path.join(folder, name)
            with open(path, encoding="utf-8") as f:
                old = f.read()
            new = turn(old)
            if new != old:
                with open(path, "w", encoding="utf-8") as f:
                    f.write(new)


if __name__ == "__main__":
    main()
