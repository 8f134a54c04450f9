# The theorems of tests/standard/run: pictures and sequences of streams as lists of bytes, and what is said of each.
import pathlib
import re
import sys

# The time grows with the square of a picture's bytes. The first picture of this one, 4,771 bytes, takes more steps than the checker allows a theorem.
LEFT_OUT = ["ipb2_176x144.m1v"]
# of these streams, whose pictures have up to 2,700 bytes, the first three pictures
FIRST_THREE = ["m2e_nob_96x80.m1v", "mat_both_64x48.m1v", "q10_64x48.m1v", "slices3_64x48.m1v"]

# of streams up to this length the whole sequence is a theorem, too, with the rule `rust`: the time grows with the square of the stream's bytes
SEQUENCE_BYTES = 6000

RULES = ["rust", "printed"]
# directions of which a picture's header says nothing are not used
HEAD = """use mathlib.Core.Path.{◌≡◌, refl}
use mathlib.Core.Bool.{Bool, true, false, ◌&&◌}
use mathlib.Core.List.{List, [], ◌∷◌, map}
use Prim.Native.Nat.{ℕ, ◌*◌}
use lib.IntN.{pos}
use Rattle.bits.specs.Programs.{run}
use Rattle.picture_state.specs.declared.types.{Stores.Stores, Matrices.Matrices}
use Rattle.standard.specs.Standard.Prelude.{conforms}
use Rattle.standard.specs.Standard.State.{Rules, Direction}
use Rattle.standard.specs.Standard.{Decoded, roles_after, picture}
use Rattle.standard.specs.Rules.{rust, printed}
use Rattle.sequence.specs.Sequence.{following}
use Rattle.sequence.specs.Display.{store_of, shown, all_but_last}
USES
abbrev still : Direction
still = record { «full_pel_vector» = false; «r_size» = 0 }

-- the picture conforms, and behind it the start code follows that is to follow
abbrev admits : Rules → ℕ → ℕ → List ℕ → List ℕ → ℕ → List ℕ → Bool
admits rules across down intra other code s =
    let m : Matrices = record { «intra_quant_matrix» = intra; «non_intra_quant_matrix» = other } in
    let o = run (picture rules (record { «mb_width» = across; «mb_height» = down; «mb_size» = across * down }) m (record { cur = 0; fwd = 1; bwd = 2 })
    still still []) s 0 in
    conforms o.value && conforms (following (pos code) m s o.at)

-- pictures of these types, one after the other
abbrev decoded_as : Stores → List ℕ → List Decoded
decoded_as t [] = []
decoded_as t (k ∷ ks) =
    record { header = record { «picture_coding_type» = k; forward = still; backward = still }; stores = roles_after k t; pels = [] }
    ∷ decoded_as (roles_after k t) ks

-- the numbers of the stores that are handed out
abbrev handed : List ℕ → List ℕ
handed types = map store_of (shown (all_but_last (decoded_as (record { cur = 0; fwd = 1; bwd = 2 }) types)))
"""
# the sequence behind the first header, picture by picture: `taken` is a picture before another, `goes-on` the law that joins it to those behind it
SEQUENCE = """use mathlib.Core.Path.{◌≡◌, refl, sym, ap, ◌∙◌, subst}
use mathlib.Core.Bool.{Bool, true, false, cond, false≢true}
use mathlib.Core.List.{List, [], ◌∷◌, map}
use Prim.Native.Nat.{ℕ, suc}
use lib.IntN.{pos}
use Rattle.bits.specs.Bits.{Found}
use Rattle.bits.specs.Programs.{RunResult, run, stream_fuel}
use Rattle.picture_state.specs.declared.types.{Sizes.Sizes, Matrices.Matrices}
use Rattle.picture_state.specs.Result.{Result, ok, error, and_then}
use Rattle.standard.specs.Standard.Prelude.{Forbidden, conforms, forbidden}
use Rattle.standard.specs.Standard.State.{Rules, Direction}
use Rattle.standard.specs.Standard.{Decoded, picture}
use Rattle.standard.specs.Rules.{rust, printed}
use Rattle.sequence.specs.Sequence.{following, SequenceState, initial_state, state_after_decoded, state_after_picture, is_last, ended, at_end, pictures}
use Rattle.sequence.specs.Display.{store_of, shown, all_but_last}
USES
abbrev sizes : Sizes
sizes = record { «mb_width» = ACROSS; «mb_height» = DOWN; «mb_size» = ALL }

abbrev matrices : Matrices
matrices = record { «intra_quant_matrix» = INTRA; «non_intra_quant_matrix» = OTHER }

abbrev s : List ℕ
s = BYTES

abbrev read : Rules → List ℕ → SequenceState → ℕ → RunResult (Result Forbidden Decoded)
read r t x a = run (picture r sizes matrices x.stores x.forward x.backward x.pels) t a

-- what `pictures` does behind the picture start code at a
abbrev from : Rules → ℕ → SequenceState → ℕ → Bool → Result Forbidden (List Decoded)
from r n x a last =
    let t = cond last (ended s) s in
    let o = read r t x a in
    and_then o.value (λ d. and_then (state_after_picture x d) (λ y.
    cond last (at_end matrices t o.at d) (and_then (pictures r sizes matrices s n y o.at) (λ ds. ok (d ∷ ds)))))

record Taken : Type 0 where
  decoded : Decoded
  state : SequenceState
  next : ℕ

abbrev taken : Rules → SequenceState → ℕ → Bool → Result Forbidden Taken
taken r x a last =
    let o = read r s x a in
    cond last forbidden (and_then o.value (λ d. and_then (state_after_picture x d) (λ y.
    and_then (following (pos 0) matrices s o.at) (λ f. ok (record { decoded = d; state = y; next = f.at })))))

also-on : {A B : Type 0} (w : Result Forbidden A) (k : A → Result Forbidden B) {y : B} → and_then w k ≡ ok y → (x : A) × (w ≡ ok x) × (k x ≡ ok y)
unfolding and_then
also-on (ok x) k e = (x, refl, e)
also-on (error d) k e = absurd (false≢true (ap conforms e))

abbrev taken_in : Taken → Result Forbidden Taken → Taken
taken_in d (ok w) = w
taken_in d (error e) = d

goes-on : (r : Rules) (n : ℕ) (x : SequenceState) (a : ℕ) (w : Taken) (ds : List Decoded) → taken r x a (is_last s a) ≡ ok w
    → from r n w.state w.next (is_last s w.next) ≡ ok ds → from r (suc n) x a (is_last s a) ≡ ok (w.decoded ∷ ds)
unfolding pictures and_then
goes-on r n x a w ds h k = go (is_last s a) h
  where
    go : (last : Bool) → taken r x a last ≡ ok w → from r (suc n) x a last ≡ ok (w.decoded ∷ ds)
    go true h = absurd (false≢true (ap conforms h))
    go false h =
        let o = read r s x a in
        let u = also-on o.value _ h in
        let v = also-on (state_after_picture x u.0) _ u.2 in
        let f = also-on (following (pos 0) matrices s o.at) _ v.2 in
        let w' : Taken = record { decoded = u.0; state = v.0; next = f.0.at } in
        let same : w' ≡ w = ap (taken_in w') f.2 in
        let k' : from r n v.0 f.0.at (is_last s f.0.at) ≡ ok ds =
        subst (λ (w : Taken). from r n w.state w.next (is_last s w.next) ≡ ok ds) (sym same) k in
        let rest : SequenceState → Result Forbidden (List Decoded) = λ y. pictures r sizes matrices s (suc n) y o.at in
        ap (λ (c : Result Forbidden Decoded). and_then c (λ d. and_then (state_after_picture x d) (λ y. and_then (rest y) (λ ds. ok (d ∷ ds))))) u.1
        ∙ ap (λ (c : Result Forbidden SequenceState). and_then c (λ y. and_then (rest y) (λ ds. ok (u.0 ∷ ds)))) v.1
        ∙ ap (λ (c : Result Forbidden Found). and_then (and_then c (λ f. from r n v.0 f.at (is_last s f.at))) (λ ds. ok (u.0 ∷ ds))) f.1
        ∙ ap (λ (c : Result Forbidden (List Decoded)). and_then c (λ ds. ok (u.0 ∷ ds))) k'
        ∙ ap (λ (w : Taken). ok (w.decoded ∷ ds)) same

begins : (r : Rules) (n a b : ℕ) (x : SequenceState) (ds : List Decoded) → following (pos 0) matrices s a ≡ ok (record { code = pos 0; at = b })
    → from r n x b (is_last s b) ≡ ok ds → pictures r sizes matrices s (suc n) x a ≡ ok ds
unfolding pictures and_then
begins r n a b x ds h k = ap (λ (c : Result Forbidden Found). and_then c (λ f. from r n x f.at (is_last s f.at))) h ∙ k

abbrev stores : Result Forbidden (List Decoded) → List ℕ
stores (ok ds) = map store_of (shown (all_but_last ds))
stores (error e) = 3 ∷ []
"""
FUEL = 134217729  # `stream_fuel`
END = b"\0\0\1\xb7\0"
INTRA = """8 16 19 22 26 27 29 34 16 16 22 24 27 29 34 37 19 22 26 27 29 34 34 38 22 22 26 27 29 34 37 40
22 26 27 29 32 35 40 48 26 27 29 32 35 40 48 58 26 27 29 34 38 46 56 69 27 29 35 38 46 56 69 83"""


# 2.4.4.1: the zig-zag order, by diagonals
def zig_zag():
    places = [(row, column) for row in range(8) for column in range(8)]
    return [8 * row + column for row, column in sorted(places, key=lambda p: (sum(p), p[0] if sum(p) % 2 else p[1]))]


# 2.4.2.3: macroblocks across and down, and the two matrices, from the bytes behind a sequence_header_code
def header(data):
    bits = "".join(f"{byte:08b}" for byte in data[:137])
    field = lambda start, n: int(bits[start : start + n], 2)
    start, matrices = 62, []
    for default in [[int(x) for x in INTRA.split()], [16] * 64]:
        matrix, loaded = default, field(start, 1)
        start += 1
        for place in zig_zag() if loaded else []:
            matrix[place] = field(start, 8)
            start += 8
        matrices.append(matrix)
    return (field(0, 12) + 15) // 16, (field(12, 12) + 15) // 16, *matrices


# of each picture: its type, the last header before it, the start code that is to follow, its bytes up to behind that
def pictures(root, name):
    s = pathlib.Path(root, "tests/streams", name).read_bytes()
    codes = [(m.start(), m[1][0]) for m in re.finditer(rb"\x00\x00\x01(.)", s, re.S)]
    found, head = [], None
    for k, (at, code) in enumerate(codes):
        if code == 0xB3:
            head = header(s[at + 4 :])
        if code == 0:
            next_picture = next((b for b, c in codes[k + 1 :] if c == 0), None)
            rest = (0xB7, s[at + 4 :] + END) if next_picture is None else (0, s[at + 4 : next_picture + 12])
            found.append(("?IPBD"[s[at + 5] >> 3 & 7], head, *rest))
    return found[: 3 if name in FIRST_THREE else None]


# of a whole stream: its first header, its bytes, the place behind that header, and the stores that the Rust hands out (tests/streams/pictures.txt)
def sequence(root, name):
    s = pathlib.Path(root, "tests/streams", name).read_bytes()
    at = s.index(b"\0\0\1\xb3") + 4
    loaded = s[at + 7] >> 1 & 1
    place = 8 * at + 64 + 512 * loaded + 512 * (s[at + 7 + 64 * loaded] & 1)
    lines = [line.split() for line in pathlib.Path(root, "tests/streams/pictures.txt").read_text().splitlines()]
    return header(s[at:]), s, place, [int(line[2]) for line in lines if line[0] == name and line[4] == "0"]


# are all pictures computed?
def whole(name):
    return name not in FIRST_THREE + LEFT_OUT


# is the whole sequence one theorem?
def short(root, name):
    return pathlib.Path(root, "tests/streams", name).stat().st_size <= SEQUENCE_BYTES


# names of the streams, each with its number
def streams(root, names):
    found = sorted(path.name for path in pathlib.Path(root, "tests/streams").glob("*.m1v"))
    return [(n, name) for n, name in enumerate(found) if (name in names if names else name not in LEFT_OUT)]


def refused(house):
    path = pathlib.Path(house, "refused")
    return path.read_text().split() if path.exists() else []


# `standard` and the crates below it, and those of the sequence layer
def crates(root):
    below = re.search(r"^standard:(.*)$", pathlib.Path(root, "crates.txt").read_text(), re.M)
    return [*below[1].split(), "standard", "header", "sequence"]


# uses of the modules that have definitions which unfold where they are named, and the names
def unfoldable(root):
    uses, names = "", []
    for crate in crates(root):
        folder = pathlib.Path(root, "crates", crate, "specs")
        for file in sorted(folder.rglob("*.antt")):
            found = re.findall(r"^unfoldable pub (\S+) :", file.read_text(), re.M)
            module = ".".join(file.relative_to(folder).with_suffix("").parts)
            alias = f"{crate}-{module}".replace(".", "-").replace("_", "-")
            uses += f"use Rattle.{crate}.specs.{module} as {alias}\n" if found else ""
            names += [f"{alias}.{name}" for name in found]
    return uses, " ".join(names)


listed = lambda values: "(" + " ∷ ".join(str(value) for value in values) + " ∷ [])"


# the theorems on a whole stream: each picture but the last with what the run goes on with behind it, then all from the last to the first
def sequence_text(root, name, n, uses, unfolds):
    (across, down, intra, other), s, place, handed = sequence(root, name)
    given = {"USES": uses, "ACROSS": across, "DOWN": down, "ALL": across * down, "INTRA": listed(intra), "OTHER": listed(other), "BYTES": listed(s)}
    text = re.sub("|".join(given), lambda word: str(given[word[0]]), SEQUENCE)
    places = [8 * (m.end() + 1) for m in re.finditer(rb"\x00\x00\x01(?=\x00)", s)]
    bits = lambda at, k: int.from_bytes(s[at // 8 : at // 8 + 6], "big") >> 48 - k & (1 << k) - 1
    stores, forward, backward, held = (0, 1, 2), (0, 1), (0, 1), False
    direction = lambda d: f"record {{ «full_pel_vector» = {'true' if d[0] else 'false'}; «r_size» = {d[1] - 1} }}"
    roles = lambda t: "record { cur = %d; fwd = %d; bwd = %d }" % t
    both = lambda: f"forward = {direction(forward)}; backward = {direction(backward)}"
    text += "\nabbrev x1 : SequenceState\nx1 = initial_state []\n"
    for k, at in enumerate(places, 1):
        kind = bits(at, 13) & 7
        if kind > 1:
            forward = (bits(at, 30) & 1, bits(at, 33) & 7)
        if kind == 3:
            backward = (bits(at, 34) & 1, bits(at, 37) & 7)
        stores = stores if kind == 3 else (stores[1], stores[2], stores[0])
        held = held or kind != 3
        text += f"\nabbrev d{k} : Decoded\n"
        text += f"d{k} = record {{ header = record {{ «picture_coding_type» = {kind}; {both()} }}; stores = {roles(stores)}; pels = [] }}\n"
        text += f"\nabbrev x{k + 1} : SequenceState\n"
        text += f"x{k + 1} = record {{ stores = {roles(stores)}; {both()}; has_reference_frame = {'true' if held else 'false'}; pels = [] }}\n"
    after = lambda k: f"(record {{ decoded = d{k}; state = x{k + 1}; next = {places[k]} }})"
    for k, at in enumerate(places[:-1], 1):
        text += f"\nstep{n}x{k} : taken rust x{k} {at} (is_last s {at}) ≡ ok {after(k)}\nunfolding {unfolds}\nstep{n}x{k} = refl\n"
    last = len(places)
    for k in range(last, 0, -1):
        text += f"\nabbrev ds{k} : List Decoded\nds{k} = d{k} ∷ {'[]' if k == last else f'ds{k + 1}'}\n"
        text += f"\nrest{n}x{k} : from rust {FUEL - k} x{k} {places[k - 1]} (is_last s {places[k - 1]}) ≡ ok ds{k}\n"
        if k == last:
            text += f"unfolding {unfolds}\nrest{n}x{k} = refl\n"
        else:
            text += f"rest{n}x{k} = goes-on rust {FUEL - k - 1} x{k} {places[k - 1]} {after(k)} ds{k + 1} step{n}x{k} rest{n}x{k + 1}\n"
    text += f"\nfirst{n}x0 : following (pos 0) matrices s {place} ≡ ok (record {{ code = pos 0; at = {places[0]} }})\nunfolding {unfolds}\nfirst{n}x0 = refl\n"
    text += f"\nsequence{n}x0 : stores (pictures rust sizes matrices s stream_fuel x1 {place}) ≡ {listed(handed)}\n"
    return text + f"sequence{n}x0 = ap stores (begins rust {FUEL - 1} {place} {places[0]} x1 ds1 first{n}x0 rest{n}x1)\n"


def theorems(root, house, *names):
    uses, unfolds = unfoldable(root)
    said, proofs = refused(house), pathlib.Path(house, "crates/admitted/proofs")
    for n, name in streams(root, names):
        text = HEAD.replace("USES", uses)
        found = pictures(root, name)
        if whole(name):
            types = listed("?IPB".index(kind) for kind, *_ in found)
            text += f"\norder{n}x0 : handed {types} ≡ {listed(sequence(root, name)[3])}\norder{n}x0 = refl\n"
        for k, (_, (across, down, intra, other), code, data) in enumerate(found, 1):
            for theorem, rule in [(f"{rule}{n}x{k}", rule) for rule in RULES]:
                if not said or theorem in said:
                    given = f"{rule} {across} {down} {listed(intra)} {listed(other)} {code} {listed(data)}"
                    text += f"\n{theorem} : admits {given} ≡ {'false' if said else 'true'}\nunfolding {unfolds}\n{theorem} = refl\n"
        (proofs / f"Stream{n}.antt").write_text(text)
        whole_stream = proofs / f"Sequence{n}.antt"
        whole_stream.unlink(missing_ok=True)
        if short(root, name) and not said:
            whole_stream.write_text(sequence_text(root, name, n, uses, unfolds))
    modules = [f"Stream{n}" for n, _ in streams(root, names)] + [f"Sequence{n}" for n, name in streams(root, names) if short(root, name) and not said]
    (proofs / "Lib.antt").write_text("".join(f"pub mod {module}\n" for module in modules))


def answer(root, house, *names):
    said, sums, sequences = refused(house), [0] * (1 + len(RULES)), [0] * (1 + len(RULES))
    for n, name in streams(root, names):
        found = pictures(root, name)
        types = [[f"{kind}{k}" for k, (kind, *_) in enumerate(found, 1) if f"{rule}{n}x{k}" in said] for rule in RULES]
        counts = [len(found)] + [len(found) - len(some) for some in types]
        told = "".join(f"; {count} admitted with {rule}, refused {' '.join(some) or '-'}" for count, rule, some in zip(counts[1:], RULES, types))
        if whole(name):
            admitted = [not some and found[0][0] == "I" for some in types]
            assert not any(re.fullmatch(rf"(first|step|rest|sequence){n}x.*", theorem) for theorem in said), name
            sequences = [a + b for a, b in zip(sequences, [1, *admitted])]
            told += "; sequence admitted with " + (" and ".join(rule for rule, yes in zip(RULES, admitted) if yes) or "neither")
        print(f"{name}: {counts[0]} pictures{told}")
        sums = [a + b for a, b in zip(sums, counts)]
    for counts, what in [(sums, "pictures"), (sequences, "whole sequences")]:
        print(f"{counts[0]} {what}" + "".join(f", {count} admitted with {rule}" for count, rule in zip(counts[1:], RULES)))


{"theorems": theorems, "answer": answer}[sys.argv[1]](*sys.argv[2:])
