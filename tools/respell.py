#!/usr/bin/env python3
"""Respells definitions and lemmas of the crates: facts and types in upper camel case, everything else in snake case.

usage: python3 tools/respell.py    at the top of the repository

The names are listed, so that every tree is turned alike. Only whole names are turned, in specs/, proofs/, src/ and the
edits of must-fail/; a name that is none of these words stays.
"""

import os
import re

NAMES = """
All-fed All-hold All-lawful All-match All-meet Analz-table Analz-told Apart-needed At-every-budget Beginning-feasible
Beginning-runs Beyond-less Bound-before Bound-in Break-by Break-decided Breaking-decided Breaking-feasible
Breaking-solution Breaking-told Breaks-at-last Breaks-last Broken-by-place Broken-told Case-stands Closed-values
Cut-off Earlier-fails Earlier-in-later Env-free Exactly-one Feasible-counts Fed-from Fed-pair Fed-told First-breaking
First-broken First-places First-way Forced-sure Free-values Fresh-injective In-range Instances-equate Instances-extend
Keeps-below Kept-release Key-branches Key-fails Known-cases Law-decided Law-told Lawful-exactly Lawful-lists
Lifting-walked Local-name Look-fails Marked-needs Matched-box Met-by-two Met-settles Name-fails Never-inside
Never-twice Next-breaks Nine-secret No-box None-breaking Not-before Nothing-breaks-nothing Of-node Of-sheet
One-listing One-play One-reply One-scan One-valuation One-word Open-needs Order-told Other-box Own-feasible Pair-needs
Plain-action Plain-key Plans-grounded Property-in Protocol-sized Reached-sure Read-into Run-solves Runs-on
Same-complete Same-sound Says-yes Scan-passes Scan-starts Seal-cases Sealed-secret Settles-on Shut-branches Shut-seal
Solution-runs Solved-breaks Some-at Some-matcher Some-place Some-reply Spent-told Splits-apart Stands-at Stays-closed
Stays-message Strands-apart Stuck-by-pair Table-stands Tables-lawful Tables-sized Told-names Tries-suffice Up-last
Walk-ends Walk-keeps Walk-starts Walks-on Was-bound Words-listed a-matcher a-name a-seal a-value a-variable
above-above absent-agree absent-place action-agree action-back action-free action-law? action-like action-message
action-of action-one action-walked action-words actions-agree actions-append actions-free actions-from actions-message
actions-walked after-decided after-labels after-names after-nodes after-strands after-variables all-at? all-below?
all-bound? all-composed all-fed-agree all-marks all-message all-or all-parts allows-cons allows-none allows-tail
already-apart already-counted already-refused an-env analz-free analz-message analz-mono analz-sound analz-table
analz-vars and-digit and-full apart-needed apart-terms apart-to apart-vars append-end as-list asc-append asc-branches
asc-if asc-map asc-words ascending-apart assigned-as at-below at-box at-end at-input at-keeps at-longer at-node
at-shorter at-text at-to at-unique at-var at-within atom-free back-mark back-said before-mem before-nil begin-≺
beginning-feasible beginning-runs begins-all begins-fault begins-more begins-none beyond-6 beyond-whole bind-cases
bind-closed bind-here bind-stays bind-there bind-var bind-within blank-length blank-take body-cut body-leaf both-needs
both-spread both-steps bound-before bound-before-all? bound-before? bound-clash bound-decided bound-empty bound-in?
bound-more bound-move bound-once bound-once? bound-twice bound-vars branches-mem break-decided break-of
breaking-decided breaking-feasible breaks-2 breaks-3 breaks-4 breaks-5 breaks-at-last breaks-by breaks-last broken-by
broken-every broken-once broken-spent broken-told build-keeps build-length build-push by-env by-env-key by-equal-box
by-iff by-mark by-marked-key by-open-key by-pair by-var can-do choose-le clash-decided composed-decides contains-front
contains-same content-of copies-all copies-more count-le count-lt counted-pop counted-put counted-room covers-mono
d-known d-unknown derived-message derives-closed did-holds differ-≺ digit-decided direction-back direction-code
direction-word disjoint-decided does-adds does-binds does-closed does-keeps draft-broken due-at each-front each-hold
earlier-back earlier-decided earlier-fails earlier-law earlier-law-later earlier-law? earlier-of earlier-plain
earlier-within earlier-words empty-bound empty-more encode-all encode-push end-stuck entry-back entry-bytes env-names
even-above every-hold exactly-one falls-new falls-old fault-number fault-record feasible-counts fed-7 fed-agree
fed-before fed-from fed-pair fed-to fed-told few-beyond few-labels few-names few-nodes few-notes few-of few-steps
few-steps? few-strands few-variables find-below find-hit find-is find-push-new find-push-old find-within first-at
first-decided first-fed first-file first-lawful first-new first-places first-push first-sound firsts-none firsts-push
fits-of flag-le flag-lt follow-all forced-sure form-at form-line forms-all forms-from forms-more forms-none
found-longer found-shorter found-split free-below free-inst free-set fresh-absent fresh-closed fresh-injective
fresh-key fresh-keyed fresh-message from-box from-covers from-leaf from-name from-names from-nodes from-strands
from-variables from-yes front-mark front-one front-said front-to-back full-instance full-unbound goes-closed
goes-keeps goes-run goes-solved goes-split good-as good-forward good-front good-once good-snoc good-step good-take
good-within grounded-from grow-entries grow-sound grown-before grown-one grown-parts had-on half-below has-like
has-property has-property? head-same heads-le heads-reset heads-set heads-some held-front held-length here-message
here-more hold-cons holds-every holds-spent if-any if-left if-mem in-first in-half in-or in-steps in-turn in-varset
indexed-none indexed-out indexed-pop indexed-put input-place inside-other inst-agree inst-closed inst-cong inst-inst
inst-means inst-meets inst-of-closed inst-says inst-still inst-vars inst-walked instance-new instance-old
instance-snoc instances-equate instances-extend is-1 is-2 is-3 is-4 is-5 is-6 is-7 is-run is-var items-none
joined-lines joined-longer joint-ends joint-is joint-none joint-on joint-refused joint-stops just-none just-same
just-union keeps-upto kept-0 kept-01 kept-1 kept-release key-branches key-fails key-is-name key-message key-name
key-plain key-shown known-8 known-cases known-composed known-grows known-message known-take known-walked label-clash
label-entries label-sound label-texts labels-grown last-element last-from last-is last-move last-number last-or-front
last-split last-state last-there last-to later-plain later-small later-sure latest-read latest-steps law-1 law-2 law-3
law-4 law-5 law-6 law-7 law-decided law-from law-told lawful-1 lawful-2 lawful-3 lawful-4 lawful-5 lawful-6 lawful-7
lawful-below lawful-exactly lawful-ordered lawful-tables lawful-true le-self left-leaf left-of length-encode
length-firsts length-numbers length-row length-sets length-terms length-total less-here less-le less-self letter-below
lift-at lift-below lift-here lifted-in lifted-le lifted-out lifting-walked like-2 like-3 like-4 like-5 like-6 like-7
like-later line-more lines-all linked-back linked-new linked-set listed-front listed-last listed-message listed-part
listed-snoc listing-1 lists-lawful local-name local-names locked-safe locked-with-key longer-else longer-is
longer-lengths longer-only longer-there longest-6 look-fails looked-in looked-none looked-past lower-covers lower-free
lower-set made-env made-known made-name made-pair-else made-pair-then made-seal made-seal-both made-seal-else
made-seal-not made-seal-then made-var make-seal map-append map-place map-within mark-within marked-above marked-free
marked-grows marked-has marked-inside marked-length marked-needs match-front match-longer matched-box may-come
means-closed means-inst mem-action? mem-at mem-before mem-both mem-branches mem-first mem-front mem-grid mem-if
mem-join mem-mid mem-place mem-rows mem-snoc mem-term? mentions-here message-shown met-by-two met-derives met-grows
met-more met-settles met-vars mid-place more-bound more-here more-last most-nodes most-notes move-join move-refl
move-solve move-trans name-at name-atom name-entries name-fails name-here name-opens name-sound name-texts name-true
named-as names-grown narrow-brief narrow-line narrow-shown near-all near-eq near-pair near-seal near-sym near-trans
near-zero neat-acts neat-of neat-on neat-reached neat-taken never-inside never-like next-at next-fine next-general
next-meets next-other next-settled next-solves nil-cons nil-recordless nine-secret no-action no-ask no-binding
no-input no-like no-nodes no-property no-property-in no-push node-back node-below node-entries node-entry
node-entry-one node-front node-is node-law-later node-law-more node-law? node-leads node-new node-old node-read
node-shape node-sound nodes-grown nodes-of nodes-stand nodes-stand? none-decided none-firsts none-held none-lawful
none-names none-nodes none-shown none-some none-strands none-up-to none-variables not-above not-before-5 not-both
not-in-zero note-fault-number note-held note-parts note-same noted-parts noted-terms nothing-breaks-nothing
nothing-there noting-more noting-none noting-push nowhere-at number-one number-set numbered-push occurs-size
odd-or-even of-file of-law of-sheet once-same one-ascending one-box one-front one-listing one-move one-note one-of-0
one-or-none one-play one-prop one-put one-reply one-scan one-step one-to one-valuation only-after only-itself
only-prop onward-cases onward-here onward-mentions onward-more open-key open-needs open-pattern? open-seal open-term
opens-env opens-more opens-name opens-pair opens-same opens-seal opens-var or-digit or-else-closed or-first or-in
or-second order-told ordered-as ordered-more ordered-push ordered-true other-box other-plain other-side out-1 out-in
out-then-in output-of output-place over-has over-in over-out own-push own-shorter owned-on owner-is pair-8 pair-below
pair-decided pair-follows pair-key pair-move pair-needs pair-sealed pair-term parent-read part-message part-or
part-part part-size passed-above passed-free passed-shut passing-more passing-none passing-same pick-strand piece-more
pieces-all place-absent place-below place-mem place-take plain-below plain-earlier plain-free plain-later plain-says
plan-agrees plan-from plan-has plan-last plan-made plan-room plan-runs plan-split plan-unique plans-grounded
plays-none plays-push pop-none pop-one printable-true property-entries property-entries-more property-entry
property-entry-one property-grown property-in? property-law property-law? property-leads property-line property-of
property-shape property-sound property-stands property-unlawful protocol-1 protocol-2 protocol-3 protocol-4 protocol-5
protocol-6 protocol-7 protocol-of push-false push-firsts push-held push-lawful push-numbers push-one pushed-gathered
pushed-narrow pushed-ordered put-cases put-fault-number put-out put-parts reached-part reached-sure reached-vars
read-refused rec-none rec-of rec-six rec-three record-bytes refusal-line right-leaf room-on round-on row-all rule-back
rule-of run-keeps run-solves running-ends running-less running-on running-room running-starts running-stops safe-body
safe-derived said-by said-known said-message said-small same-action same-decided same-front same-itself same-last
same-latest same-rec same-table scan-passes scan-starts seal-below seal-held seal-here seal-in seal-key seal-leaf
seal-parts seal-term sealed-made sealed-secret secret-kept self-vars set-grows set-inside set-members set-of sets-none
sets-push settled-parts shaped-input shaped-open shaped-output shaped-same shaped-split sheet-1 sheet-2 sheet-3
sheet-4 sheet-5 sheet-6 sheet-7 short-of shut-after shut-before shut-branches shut-old shut-or shut-seal six-body
size-firsts sized-tables small-below small-passes small-says small-starts small-variable sofar-broken sofar-cut
sofar-ended sofar-more sofar-none sofar-taken solution-runs solved-breaks some-at? some-place some-place? some-reply
sort-grown sound-composed sound-from sound-grown sound-here sound-marking sound-nothing sound-set spent-told split-all
split-in split-pair split-pattern? split-short split-term split-twice spread-apart spread-atom spread-inside spread-on
spread-pair spread-seal spread-shut stays-front stays-message step-apart step-bound step-clash step-entered
step-entries step-entry step-entry-one step-full step-grown step-known step-law step-law-later step-law? step-leads
step-shape step-sound step-tracks step-united step-written steps-5 steps-stand steps-stand? stop-of stop-one
stops-next stops-one strand-below strand-entered strand-entries strand-entries-more strand-full strand-grown
strand-lines strand-pushed strand-sound strands-apart strands-grown strands-more stuck-by-pair subset-decided
sure-message t-still tables-lawful tables-sized take-before take-mem take-mono take-place take-two
taken-before taken-says term-at term-before term-discrete term-last term-set text-line text-part text-pushed texts-of
the-run then-last three-body time-on time-within told-1 told-2 told-3 told-4 told-5 told-6 told-7 told-by told-from
told-to total-beyond total-le total-less traced-free traced-link traced-none traced-own tries-suffice true-lawful
true-name true-not-false true-printable two-acts two-names two-terms unbound-zero under-agree under-longer
under-walked united-left united-right unknown-8 up-last up-new up-old up-other used-early used-vars uses-at uses-from
uses-map uses-more uses-weaker val-law var-term variable-at variable-entries variable-front variable-new variable-old
variable-read variable-sound variable-texts variables-grown vars-at vars-both vars-from vars-inst vars-map vars-prop
vars-weaker varset-in verdict-1 verdict-2 verdict-3 verdict-4 verdict-5 verdict-6 verdict-7 walk-keeps walk-starts
walks-on way-none when-refused whole-at whole-front whole-listing whole-longest whole-only wide-brief wide-decided
wide-line wide-shown with-back with-binding with-earlier with-label with-name with-node with-one with-property
with-step with-strand with-strands with-variable words-all words-allow words-listed zero-at zeros-fill zeros-free
zeros-read ≺-asym ≺-irrefl
"""

# a lemma that would have the name of a function of its crate
OTHERWISE = {"known-cases": "known_cases_lem"}

TOKEN = re.compile(r"[^\s(){}\[\];,.:λ→\"|`⌜⌝]+")


def respelled(name):
    if name in OTHERWISE:
        return OTHERWISE[name]
    if name[0].isupper():
        return "".join(word[:1].upper() + word[1:] for word in name.split("-"))
    return name.replace("-", "_")


def files(top):
    for folder, folders, names in os.walk(os.path.join(top, "crates")):
        folders[:] = sorted(f for f in folders if f != "out")
        for name in sorted(names):
            if name.endswith((".antt", ".rt", ".edit")):
                yield os.path.join(folder, name)


def main():
    table = {name: respelled(name) for name in NAMES.split()}
    for path in files("."):
        with open(path, encoding="utf-8") as f:
            old = f.read()
        new = TOKEN.sub(lambda m: table.get(m.group(), m.group()), old)
        if new != old:
            with open(path, "w", encoding="utf-8") as f:
                f.write(new)


main()
