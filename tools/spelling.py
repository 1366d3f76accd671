#!/usr/bin/env python3
"""Spells this repository's own definitions and lemmas as Rattle spells its own.

usage: python3 tools/spelling.py        at the top of the repository; a second run changes nothing

Functions and lemmas are in snake case, types in camel case; a dash stays where it joins
the names of two functions, as in length-be. Functions of src/, strings, comments of src/
and the inputs and outputs of programs keep their names.
"""

import os
import re

NAMES = dict(row.split(" ") for row in """
Component-read ComponentRead
Components-read ComponentsRead
Frame-read FrameRead
Parts-read PartsRead
Row-read RowRead
Rule-read RuleIsRead
Rules-read RulesRead
Sound-parts SoundParts
active-read active_read
activeFrom active_from
after-err after_err
after-inv after_inv
after-ok after_ok
allAlone all_alone
allDigits all_digits
alone-more alone_more
alone-too alone_too
ap-lt ap_lt
apart-map apart_map
back-octets back_octets
be-number be_number
be-step be_step
before-distance before_distance
before-trailer before_trailer
clash-free clash_free
clashes-at clashes_at
clashes-here clashes_here
clashes-on clashes_on
component-inv component_inv
component-ok component_ok
component-read component_read
component-written component_written
componentFrom component_from
componentOctets component_octets
componentWords component_words
components-back components_back
components-length components_length
components-more components_more
components-part components_part_is
components-read components_read
components-small components_small
components-written components_written
componentsFrom components_from
componentsIn components_in
componentsOctets components_octets
componentsPart components_part
componentsWords components_words
count-back count_back
count-refused count_refused
countIn count_in
descriptor-inv descriptor_inv
descriptor-part descriptor_part_is
descriptor-parts descriptor_parts
descriptor-read descriptor_read
descriptor-written descriptor_written
descriptorFrom descriptor_from
descriptorOctets descriptor_octets
descriptorOf descriptor_of
descriptorPart descriptor_part
differ-more differ_more
digit-encode digit_encode
digit-in digit_in
digit-is digit_is
digits-at digits_at
digits-go digits_go
digits-stop digits_stop
distance-refused distance_refused
distanceIn distance_in
elem-push elem_push
elem-snoc elem_snoc
eqb-flip eqb_flip
fault-replied fault_replied
faultWords fault_words
few-components few_components
few-of few_of
found-inv found_inv
found-more found_more
found-or found_or
found-room found_room
found-stop found_stop
found-surplus found_surplus
frame-inv frame_inv
frame-ok frame_ok
frameFrom frame_from
front-field front_field
front-octets front_octets
functionality-read functionality_read
functionality-written functionality_written
functionalityCode functionality_code
functionalityFrom functionality_from
functionalityWords functionality_words
heading-back heading_back
headingIn heading_in
hex-append hex_append
hex-digits hex_digits
hex-more hex_more
hex-paired hex_paired
hex-refused hex_refused
hex-same hex_same
hex-step hex_step
hexOf hex_of
inColumn in_column
isDigit is_digit
joined-append joined_append
joined-room joined_room
kind-kept kind_kept
kind-known kind_known
kind-type kind_type
kindIn kind_in
last-inv last_inv
last-octet last_octet
length-hex length_hex
length-information length_information
length-rule length_rule
length-sheet length_sheet
length-value length_value
line-is line_is
lines-all lines_all
made-from made_from
matches-map matches_map
memory-is memory_is
mode-read mode_read
mode-written mode_written
modeCode mode_code
modeFrom mode_from
modeInColumn mode_in_column
modeWords mode_words
no-clash no_clash
no-mark no_mark
no-refusal no_refusal
noCommand no_command
noComponents no_components
noHex no_hex
none-clash none_clash
not-before not_before
number-be number_be
octets-cons octets_cons
octets-drop octets_drop
octets-take octets_take
octetsIn octets_in
odd-no-hex odd_no_hex
only-field only_field
other-no-hex other_no_hex
paired-all paired_all
paired-hex paired_hex
paired-more paired_more
part-octets part_octets
parts-octets parts_octets
parts-sound parts_sound
placed-all placed_all
placed-more placed_more
placed-none placed_none
placed-room placed_room
priority-read priority_read
priorityFrom priority_from
refusalWords refusal_words
refuse-if refuse_if
refuse-inv refuse_inv
refuse-not refuse_not
refuse-so refuse_so
rewrite-refused rewrite_refused
rewrites-ok rewrites_ok
rule-inv rule_inv
rule-met rule_met
rule-ok rule_ok
rule-read rule_read
rule-stops rule_stops
rule-written rule_written
ruleBody rule_body
ruleFrom rule_from
ruleLine rule_line
ruleOctets rule_octets
ruleWords rule_words
rules-joined rules_joined
rules-read rules_read
rules-refused rules_refused
rules-sound rules_sound
rules-written rules_written
rulesFrom rules_from
rulesOctets rules_octets
rulesOf rules_of
same-said same_said
sheet-done sheet_done
sheet-inv sheet_inv
sheet-line sheet_line
sheet-read sheet_read
sheet-refused sheet_refused
sheet-replied sheet_replied
sheet-reply sheet_reply
sheet-written sheet_written
sheetFrom sheet_from
sheetOctets sheet_octets
sheetWords sheet_words
size-refused size_refused
sound-parts sound_parts
sound-rules sound_rules
sound-set sound_set
soundComponents sound_components
soundRule sound_rule
standbyWords standby_words
take-two take_two
to-other to_other
to-sheet to_sheet
to-unknown to_unknown
types-push types_push
under-octets under_octets
value-digit value_digit
valueFrom value_from
valueOctets value_octets
when-from when_from
when-not when_not
written-three written_three
""".split("\n") if row)

WORD = re.compile(r"[^\s(){}.;,\"\\⌜⌝]+")


def turn(text):
    return WORD.sub(lambda m: NAMES.get(m.group(0), m.group(0)), text)


def turn_source(text):
    """The text of a .rt file, but for its strings and comments."""
    out = []
    for line in text.split("\n"):
        if line.lstrip().startswith("//"):
            out.append(line)
            continue
        parts = re.split(r'("(?:[^"\\]|\\.)*")', line)
        out.append("".join(p if i % 2 else turn(p) for i, p in enumerate(parts)))
    return "\n".join(out)


def main():
    for folder, dirs, files in os.walk("crates"):
        dirs[:] = sorted(d for d in dirs if d not in ("out", "target"))
        for name in sorted(files):
            if not name.endswith((".rt", ".antt")):
                continue
            path = os.path.join(folder, name)
            with open(path, encoding="utf-8") as f:
                old = f.read()
            new = turn_source(old) if name.endswith(".rt") else turn(old)
            if new != old:
                with open(path, "w", encoding="utf-8") as f:
                    f.write(new)


main()
