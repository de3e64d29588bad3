#!/usr/bin/env python3
"""Brings this repository's own definitions and lemmas to the library's spelling: snake case, with a dash between two names.

usage: python3 tools/respell.py [ROOT]   once, after the kit's port.py, over ROOT/crates

Each token of a specs/ or proofs/ file, and each token outside strings and comments of a .rt file, that stands in the table
below gets the name beside it. Functions, types and fields of src/ keep their names.
"""

import os
import re
import sys

# In the crate bank alone: lemmas that would get the name of a definition that they speak of.
BANK = """
read-buffer read_buffer_lem
read_answer read_answer_lem
"""

NAMES = """
Kept-up KeptUp
Reads-back ReadsBack
address-again address_again
afterAsked after_asked
afterBuild after_build
afterPut after_put
afterTable after_table
alike-orderly alike_orderly
all-exchanged all_exchanged
answerTo answer_to
area-done area_done
area-questions area_questions
area-said area_said
areaEnd area_end
askable-here askable_here
askedAnswer asked_answer
askedLength asked_length
askedNumber asked_number
at-making at_making
bank-if bank_if
bank-offsets bank_offsets
bank-sound bank_sound
bank-with bank_with_lem
bankByte bank_byte
bankMeaning bank_meaning
bankWith bank_with
begun-orderly begun_orderly
behind-first behind_first
below-fitting below_fitting
best-gap best_gap
block-laid block_laid
block-of-bytes block_of_bytes
block-of-held block_of_held
block-on-held block_on_held
blockByte block_byte_of
blockByteIn block_byte_in
blockBytes block_bytes
blockCount block_count
blockOfSector block_of_sector
blockUse block_use
blocks-past blocks_past
blocks-within blocks_within
bottom-after bottom_after
bottomBlock bottom_block
bottomNoted bottom_noted
bottomOf bottom_of
brought-orderly brought_orderly
buildAnswer build_answer
by-volume by_volume
byCode by_code
byte-kept byte_kept
byteAddress byte_address
bytesOf-map bytes_of-map
bytesOf-push bytes_of_push
bytesOr bytes_or
checkedHead checked_head
clear-said clear_said
close-done close_done
close-questions close_questions
close-said close_said
closed-end closed_end
closed-found closed_found
closed-more closed_more
closed-named closed_named
closed-orderly closed_orderly
closed-start closed_start
commandOf command_of
count-at-within count_at_within
count-if count_if
count-more count_more
counted-all counted_all
counted-more counted_more
covered-at covered_at
cr-lf cr_lf
digit-all digit_all
digit-more digit_more
digit-none digit_none
digitOf digit_of
drive-back drive_back
drive-sound drive_sound
driveMeaning drive_meaning
driveOf drive_of
drop-with-part drop-with_part
effect-said effect_said
end-outside end_outside
endPointer end_pointer
ends-elsewhere ends_elsewhere
entries-named entries_named
entries-some entries_some
entryName entry_name
entryNames entry_names
every-list every_list
exact-is exact_is
exact-said exact_said
exchanged-none exchanged_none
exchanged-some exchanged_some
fault-answer fault_answer
faultNumber fault_number
field-reads field_reads
find-more find_more
find-some find_some
first-bare first_bare
first-left first_left
first-of-whole first_of_whole
first-start first_start
firstByte first_byte
found-find found_find
found-own found_own
free-none free_none
free-place free_place
front-more front_more
full-place full_place
fullTable full_table
get_d_part get_or_part
gaps-all gaps_all
getD-counting get_or_counting
handed-orderly handed_orderly
has-from-in has_from_in
has-from-run has_from_run
head-fits head_fits
header-fits header_fits
header-kept header_kept
header-same header_same
header-stored header_stored
header-with header_with
headerOf header_of
heldEnd held_end
high-name high_name
hit-here hit_here
hit-r hit_r
if-answered if_answered
image-sound image_sound
imageMeaning image_meaning
imageWith image_with
in-from-has in_from_has
in-gaps in_gaps
in-quotes in_quotes
in-range is_in_range
inPlace in_place
initialize-area initialize_area
initialize-done initialize_done
initialize-semaphores initialize_semaphores
inserted-least inserted_least
inserted-past inserted_past
inside-end inside_end
inside-more inside_more
instead-by instead_by
is-clear is_clear
is-done is_done
is-lock is_lock
is-r is_r
is-reading is_reading
is-sound is_sound
is-there is_there
is-unlock is_unlock
is-writing is_writing
isSpared is_spared
keep-held keep_held
keep-laid keep_laid
keep-names keep_names
keep-piped keep_piped
keeps-fits keeps_fits
kept-first kept_first
kept-shift kept_shift
laid-alike laid_alike
laid-in-turn laid_in_turn
laid-orderly laid_orderly
law-of-locks law_of_locks
law-of-pipes law_of_pipes
laws-hold laws_hold
layer-lawful layer_lawful
layerLayout layer_layout
layered-lawful layered_lawful
length-all length_all
length-bytesOf length-bytes_of
length-nameTable length-name_table
length-names length_names
length-pointerEntries length-pointer_entries
length-pointerTable length-pointer_table
length-semaphoreTable length-semaphore_table
length-tablesAsked length-tables_asked
length-with-part length-with_part
lies-down lies_down
lineEnds line_ends
lines-append lines_append
lines-doubled lines_doubled
lines-quoted lines_quoted
linesPassed lines_passed
lock-done lock_done
lock-full lock_full
lock-present lock_present
lock-questions lock_questions
lock-taken lock_taken
lockAnswer lock_answer
lockByte lock_byte
lockOutcome lock_outcome
lockedAnswer locked_answer
longest-longer longest_longer
longest-push longest_push
low-name low_name
lowered-all lowered_all
lowered-more lowered_more
lowered-there lowered_there
lowest-absent lowest_absent
lowest-all lowest_all
lowest-more lowest_more
lowest-unused lowest_unused
map-past map_past
map-within map_within
mapByte map_byte_of
mapByteIn map_byte_in
mark-here mark_here
mark-sized mark_sized
may-name may_name
meaning-stored meaning_stored
meaningOf meaning_of
modified-said modified_said
most-of most_of
name-again name_again
name-found name_found
name-none name_none
name-said name_said
nameBytes name_bytes
namePacket name_packet
nameTable name_table
named-writing named_writing
names-bytes names_bytes
names-long names_long
names-told names_told
never-at never_at
never-none never_none
new-block new_block
new-checked new_checked
new-header new_header
new-image new_image
new-pipe new_pipe
newHead new_head
next-below next_below
next-none next_none
next-r next_r
next-some next_some
noTracks no_tracks
none-firmware none_firmware
none-held none_held
none-or-one none_or_one
none-reserve none_reserve
none-spared none_spared
not-refused not_refused
notedBy noted_by
numberOr number_or
obey-changes obey_changes
obey-said obey_said
of-lent of_lent
ofDigit of_digit
on-blocks on_blocks
on-pipes on_pipes
on-semaphores on_semaphores
once-exchanged once_exchanged
once-inserted once_inserted
once-less once_less
once-same once_same
one-byte-more one_byte_more
open-read open_read
open-read-done open_read_done
open-read-in open_read_in
open-read-questions open_read_questions
open-write open_write
open-write-done open_write_done
open-write-in open_write_in
open-write-questions open_write_questions
openAnswer open_answer
opened-for-write opened_for_write
openedReading opened_reading
openedWriting opened_writing
or-free or_free
ordinary-mark ordinary_mark
other-end other_end
other-part other_part
outside-area outside_area
own-fits own_fits
own-part own_part
packetOf packet_of
part-long part_long
part-more part_more
part-new part_new
partOutcome part_outcome
partWritten part_written
parts-kept parts_kept
perBlock per_block
pile-lawful pile_lawful
pile-total pile_total
pileLayout pile_layout
piled-sound piled_sound
pipe-read pipe_read
pipe-read-done pipe_read_done
pipe-read-of pipe_read_of
pipe-read-questions pipe_read_questions
pipe-read-said pipe_read_said
pipe-said pipe_said
pipe-write pipe_write
pipe-write-done pipe_write_done
pipe-write-of pipe_write_of
pipe-write-questions pipe_write_questions
pipe-write-said pipe_write_said
pipeAnswer pipe_answer
pipeName pipe_name
pipeNumber pipe_number
pipePacket pipe_packet
pipePointer pipe_pointer
pipeReadAnswer pipe_read_answer
pipeWritePacket pipe_write_packet
pipes-long pipes_long
pipesOf pipes_of
place-below place_below
place-small place_small
placeUse place_use
placed-longer placed_longer
placed-new placed_new
places-all places_all
places-more places_more
plain-bare plain_bare
plain-field plain_field
plain-on plain_on
pointerAfter pointer_after
pointerEntries pointer_entries
pointerTable pointer_table
pointers-put pointers_put
put-end put_end
put-more put_more
put-start put_start
putAnswer put_answer
quote-all quote_all
quote-more quote_more
quoted-faults quoted_faults
quoted-field quoted_field
rank-hit rank_hit
rank-none rank_none
rank-skip rank_skip
read-changes read_changes
read-put read_put
read-questions read_questions
read-refused read_refused
read-said read_said
readAnswer read_answer
readBuffer read_buffer
readByte read_byte
readInto read_into
readPacket read_packet
reads-back reads_back
record-end record_end
record-faults record_faults
record-line record_line
record-more record_more
record-rest record_rest
recordOf record_of
refusalNumber refusal_number
refused-changes refused_changes
removed-some removed_some
removed-take removed_take
reopened-orderly reopened_orderly
replyOf reply_of
rest-length rest_length
returned-sized returned_sized
rising-cases rising_cases
rising-head rising_head
rising-top rising_top
said-again said_again
said-changes said_changes
said-refused said_refused
same-last same_last
sector-answer sector_answer
sector-back sector_back
sector-fits sector_fits
sectorAnswer sector_write_answer
sectorNumber sector_number
sectorOf sector_of
semaphore-said semaphore_said
semaphore-test semaphore_test
semaphorePacket semaphore_packet
semaphoreTable semaphore_table
serveNumber serve_number
served-command served_command
served-does served_does
setUp set_up
shelfMeaning shelf_meaning
shift-least shift_least
shift-lt shift_lt
since-begun since_begun
since-clear since_clear
sizeBytes size_bytes
sized-here sized_here
some-none some_none
sought-end sought_end
sought-hit sought_hit
sought-more sought_more
sought-next sought_next
sought-start sought_start
sound-if sound_if
soundHead sound_head
spared-lawful spared_lawful
spared-none spared_none
sparedLayout spared_layout
spelled-longer spelled_longer
spelled-push spelled_push
standing-first standing_first
standing-kept standing_kept
standing-last standing_last
start-above start_above
start-below start_below
stateBits state_bits
status-said status_said
statusAnswer status_answer
statusInto status_into
statusPacket status_packet
step-cases step_cases
step-lt step_lt
still-covered still_covered
stops-longer stops_longer
store-sound store_sound
storeBytes store_bytes
storeMeaning store_meaning
storeWith store_with
table-said table_said
tablePacket table_packet
tables-told tables_told
tablesAsked tables_asked
text-end text_end
textLeft text_left
there-by there_by
three-parts three_parts
told-put told_put
trackCheck track_check
trackLayout track_layout
twoOfAName two_of_a_name
unlock-absent unlock_absent
unlock-done unlock_done
unlock-questions unlock_questions
unlock-removed unlock_removed
unlockAnswer unlock_answer
unlockByte unlock_byte
unlockOutcome unlock_outcome
unused-absent unused_absent
unused-all unused_all
unused-entry unused_entry
unused-here unused_here
unused-more unused_more
valueFrom value_from
whole-block whole_block
whole-sector whole_sector
window-lawful window_lawful
windowCheck window_check
windowLayout window_layout
with-block with_block
with-bottom with_bottom
with-part-in with_part_in
with-part-out with_part_out
with-pipes with_pipes
with-semaphores with_semaphores
with-volume with_volume
withDigit with_digit
word-again word_again
word-hd word_hd
word-of-bytes word_of_bytes
work-if work_if
work-offsets work_offsets
work-with work_with
workMeaning work_meaning
worldOf world_of
write-back write_back
write-facts write_facts
write-questions write_questions
write-said write_said
writeAnswer write_answer
writeByte write_byte
writeCode write_code
writePacket write_packet
wrote-whole wrote_whole
zero-at zero_at
zero-block zero_block
"""


def table(text):
    return dict(line.split() for line in text.strip().splitlines())


TOKEN = re.compile(r"[^\s(){}\[\],;.:λ\"]+")
# a string, a comment, a character, or other text
PIECE = re.compile(r'"(?:[^"\\]|\\.)*"|//[^\n]*|\'(?:[^\'\\]|\\.)\'|[^"/\']+|.', re.S)
COMMENT = re.compile(r"--(?=\s|$)[^\n]*")


def respelled(text, names):
    return TOKEN.sub(lambda m: names.get(m.group(0), m.group(0)), text)


def antt(text, names):
    lines = []
    for line in text.split("\n"):
        at = COMMENT.search(line)
        cut = at.start() if at else len(line)
        lines.append(respelled(line[:cut], names) + line[cut:])
    return "\n".join(lines)


def rattle(text, names):
    return "".join(p if p[0] in "\"/'" else respelled(p, names) for p in PIECE.findall(text))


def main(root):
    for folder, dirs, files in os.walk(os.path.join(root, "crates")):
        dirs[:] = sorted(d for d in dirs if d != "out")
        inside = os.path.relpath(folder, os.path.join(root, "crates")).split(os.sep)
        names = table(NAMES) | (table(BANK) if inside[0] == "bank" else {})
        for f in sorted(files):
            turn = {".antt": antt, ".rt": rattle}.get(os.path.splitext(f)[1])
            if not turn:
                continue
            path = os.path.join(folder, f)
            with open(path, encoding="utf-8") as it:
                old = it.read()
            new = turn(old, names)
            if new != old:
                with open(path, "w", encoding="utf-8") as it:
                    it.write(new)


if __name__ == "__main__":
    main(sys.argv[1] if len(sys.argv) > 1 else ".")
