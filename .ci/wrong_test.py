"""Tries .ci/wrong itself, on edits of one small crate whose verdicts are known: wrong bodies, and
among them harmless ones, one that another one hides, ones that can't be read or don't compile."""
import os
import tempfile

CRATE = "pmb_places"

# By name: the word that its verdict has, and the edit.
EDITS = {
    # A return isn't a line feed. The same function as in the next edit, so not in one check with it.
    "a_return_ends_a_line": ("refused by meaning", """file: src/places.rt
old:         if byte == b'\\n' {
new:         if byte == b'\\r' {
"""),
    "the_same_in_another_order": ("NOT REFUSED", """file: src/places.rt
old:         if byte == b'\\n' {
new:         if b'\\n' == byte {
"""),
    # Its function calls the one of the first edit, whose failure hides it in one check.
    "harmless_above_a_wrong_one": ("NOT REFUSED", """file: src/places.rt
old:         let here = self.here.after(byte);
new:         let _ = byte; let here = self.here.after(byte);
"""),
    "a_number_sign_goes_on_with_a_word": ("refused by meaning", """file: src/short_word.rt
old:     byte > b'#'
new:     byte >= b'#'
"""),
    "only_a_name_of_the_proof_is_missing": ("refused by name only", """file: src/open_word.rt
old:     let room = bytes.remaining_capacity().min(more.len());
new:     let rooms = bytes.remaining_capacity().min(more.len());
old:     let front = &more[..room];
new:     let front = &more[..rooms];
"""),
    # What the proof states of the loop has the name, so without it a goal is even false.
    "only_the_name_of_a_loop_is_missing": ("refused by name only", """file: src/open_word.rt
old:         for (i, byte) in bytes.iter().enumerate() {
new:         for (at, byte) in bytes.iter().enumerate() {
old:                 from = i + 1;
new:                 from = at + 1;
"""),
    "a_constant_is_wrong": ("refused by meaning", """file: src/open_word.rt
old: pub const WORD: usize = 32;
new: pub const WORD: usize = 33;
"""),
    "does_not_compile": ("NOT TRIED", """file: src/open_word.rt
old:     matches!(byte, b' ' | b'\\t' | b'\\n' | b'\\r')
new:     matches!(bite, b' ' | b'\\t' | b'\\n' | b'\\r')
"""),
    "not_in_the_file": ("NOT TRIED", """file: src/places.rt
old: a text that the file doesn't have
new: another one
"""),
    "no_pair": ("NOT TRIED", "file: src/places.rt\nold: use\n"),
    "a_statement": ("NOT TRIED", """file: src/short_word.rt
old: ensures { result ≡ is_plain byte }
new: ensures { result ≡ result }
"""),
}


def run(options, crates, try_all, spent):
    """Returns 0 if each edit has the verdict that it should have."""
    with tempfile.TemporaryDirectory(prefix="wrong-test-") as folder:
        for name, (_, text) in EDITS.items():
            with open(os.path.join(folder, f"{name}.edit"), "w", encoding="utf-8") as file:
                file.write(text)
        options.folder, options.names = folder, [CRATE]
        tried = {it.name: it.verdict for it in try_all(options, crates)}
    wrong = [name for name, (verdict, _) in EDITS.items() if tried.get(name) != verdict]
    for name in wrong:
        print(f"wrong: self-test: {name}: {tried.get(name)}, and not {EDITS[name][0]}")
    right = f"{len(EDITS) - len(wrong)} verdicts as they should be, {len(wrong)} not"
    print(f"self-test: {right}; {spent():.0f} processor seconds")
    return 1 if wrong else 0
