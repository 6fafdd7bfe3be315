#!/usr/bin/env python3
"""Counts what makes the pages hard to read: sentences of more than thirty words; the words `such`, `that of`, `the one` and `others`;
and sentences without a verb among their first twelve words. No page may have more of these than MOST says; who makes one less
lowers its number there.

What is taken for a verb is told by words alone. It is a word of FORMS, as `is` and `can`; one of VERBS, or one of these with the
ending of a person or of a past, as `sends` and `answered`; or a word that ends in `n't`. So a noun that is spelt as a verb counts as
one, as `answer`, and a verb that isn't listed doesn't. Tested are sentences of four words or more that end in a full stop, a
question mark or a colon. Those are not tested that begin in a cell of a table without ending there, headings, and what stands in bold
letters in front of a paragraph.

usage: sentences.py        prints the counts of each page
       sentences.py PAGE   prints each sentence of a page, as `docs/C.md`, that is counted
"""
import pathlib
import re
import sys

TOP = pathlib.Path(__file__).resolve().parent.parent
WORDS = re.compile(r"\b(such|that of|the one|others)\b", re.I)

FORMS = set("""is are was were be been am has have had do does did can could may might must will would shall should
    it's that's there's let's went came got made sent knew known took taken gave given held kept left lost found told said written
    wrote read begun began built drawn shown seen chosen fell stood stands understood meant set put cut let""".split())
VERBS = set("""accept acknowledge act add admit agree aim allow alter answer appear append apply arrive ask assume begin behave believe
    belong bind bound break bring build call cancel carry change check choose claim close come compare compile compute conclude confirm
    connect consist contain continue copy correspond cost count cover create cross cut decide declare defend define delay deliver demand
    depend describe detect determine differ discover displace dispatch distinguish divert do draw drop echo empty end ensure equal evict
    exchange exclude exist expect expire explain extend fail fetch fill find finish fit flush follow forget form free gate get give go grow
    guard happen hash have hear help hide hold ignore imply import include install interleave join judge jump keep know lack last lead lease
    leave lend let lie limit link list listen live look lose lower maintain make manage mark matter mean measure meet mend move name need
    note obtain occur offer omit open order outlive own pass pay pin poll postpone prefer prepare pretend prevent print probe process
    promise protect prove pull push put queue quote range reach read rebuild receive recognize refer refuse register release remain
    remember remove renew repeat replace report request require reserve reset rest restart return rewrite rise round run save say scale
    see seem send serve set share show skip sleep solicit speak specify spend stand start state stay step stop store subtract suffice
    suit sum suppose swap synchronize take talk tell tend terminate test think touch trace transmit treat trust try turn update use
    vary verify wait wake walk want warn watch work write wrap""".split())
# of a page: the most long sentences, the most of these words, and the most sentences without a verb
MOST = {
    "README.md": (0, 0, 0),
    "docs/C.md": (0, 0, 0),
    "docs/CLIENT.md": (0, 0, 0),
    "docs/SECURITY.md": (0, 0, 0),
    "docs/SERVICES.md": (4, 0, 0),
    "docs/TCP.md": (0, 0, 0),
}
WHAT = ("sentences of more than 30 words", "of the words `such`, `that of`, `the one`, `others`", "sentences without a verb in front")


def sentences(text):
    """The sentences of a page's paragraphs, lists and cells, without code; a link counts by its words."""
    text = re.sub(r"^```.*?^```|^    .*$", "", text, flags=re.M | re.S if "```" in text else re.M)
    text = re.sub(r"\]\([^)]*\)", "]", re.sub(r"`[^`\n]*`", "x", text))
    for block in re.split(r"\n\s*\n|^\|[-|]+\|$|\n(?=- |\d+\. |\||#)", text, flags=re.M):
        for cell in block.split("|") if block.lstrip().startswith("|") else [block]:
            yield from (one.strip() for one in re.split(r"(?<=[.?!])\s+|(?<=[.?!]\*\*)\s+", " ".join(cell.split())) if re.search(r"\w", one))


def is_verb(word):
    """Whether a word is taken for a verb."""
    word = word.lower()
    if word in FORMS or word.endswith("n't"):
        return True
    stems = {word}
    for ending, more in (("s", ""), ("es", ""), ("ies", "y"), ("d", ""), ("ed", ""), ("ied", "y")):
        if word.endswith(ending):
            stems.add(word.removesuffix(ending) + more)
    if word.endswith("ed") and len(word) > 5 and word[-3] == word[-4]:
        stems.add(word[:-3])
    return bool(stems & VERBS)


def lacks_verb(one):
    """Whether a sentence has no verb among its first twelve words."""
    words = re.findall(r"[A-Za-z][\w'-]*", re.sub(r"[*_\[\]]", "", one))
    ends = re.search(r"[.?:]\**\)?$", one)
    return bool(ends) and len(words) >= 4 and not re.match(r"#|(- )?\*\*[^*]*\*\*$", one) and not any(is_verb(word) for word in words[:12])


def counts(text):
    """How many sentences of a page are long, how many words are among those that are counted, and how many have no verb."""
    found = list(sentences(text))
    return (sum(len(one.split()) > 30 for one in found), sum(len(WORDS.findall(one)) for one in found),
            sum(lacks_verb(one) for one in found))


def problems():
    """Names each page that has more than it may."""
    for name, most in MOST.items():
        found = counts((TOP / name).read_text(encoding="utf-8"))
        for count, limit, what in zip(found, most, WHAT):
            if count > limit:
                yield f"{name}: {count} {what}, and at most {limit}"


def main(arguments):
    """Prints the counts, or what is counted."""
    if not arguments:
        for page in sorted({*MOST, *(str(path.relative_to(TOP)) for path in (TOP / "docs").glob("*.md"))}):
            print(f"{page}: {counts((TOP / page).read_text(encoding='utf-8'))}")
    for name in arguments:
        for one in sentences((TOP / name).read_text(encoding="utf-8")):
            why = [what for what, found in zip(("long", "word", "no verb"), counts_of(one)) if found]
            if why:
                print(f"[{', '.join(why)}] {one}")


def counts_of(one):
    """What is counted of one sentence."""
    return len(one.split()) > 30, WORDS.findall(one), lacks_verb(one)


if __name__ == "__main__":
    main(sys.argv[1:])
