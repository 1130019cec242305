#!/bin/sh
# Writes crates/my_engine, the engine of docs/CACHE.md, and its line of crates.txt.
set -eu
cd "$(dirname "$0")/.."
if [ -e crates/my_engine ]; then
    echo "engine.sh: crates/my_engine is there already" >&2
    exit 1
fi
mkdir -p crates/my_engine/proofs crates/my_engine/proofs/keep crates/my_engine/proofs/laid_on crates/my_engine/specs crates/my_engine/src

cat > crates/my_engine/src/main.rt <<'END'
//! Keeps a text in a file of two blocks: its bytes in block 0, and in the first byte of block 1 how many they are.
#![tactic(auto)]

ghost use Rattle.std.specs.Prelude.{◌≡◌, ◌<◌, length, IfOk, OnOk};
ghost use Rattle.patch_cache.specs.Meaning.{IsCacheOf};
ghost use Rattle.my_engine.specs.Text.{laid, text_in, IsNoneOrAll, Begins, Ends, AtEachMoment};

use anyhow::{Result, bail};
use patch_cache::{Cache, Flights};
use patch_device::{Device, FileDevice};
use patch_model::{BlockBytes, BlockNo, Undo, laws};
use std::alloc::Global;

const FILE: &str = "text.disk";

const TEXT: &[u8] = b"no length without its bytes";

/// A cache of the blocks with the text laid on them: its length reaches the disk after its bytes.
fn laid_on(alloc: Global, blocks: Vec<BlockBytes>, text: &[u8]) -> Result<Cache>
    requires two { length blocks.items ≡ 2 }
    requires short { length text.now < 256 }
    ensures { IfOk result (λ cache. IsCacheOf cache (laid blocks.items text.now)) }
{
    let mut cache = Cache::open(alloc, blocks)?;
    let bytes = cache.create(BlockNo(0), 0, text, &[], Undo::Keep)?;
    cache.create(BlockNo(1), 0, &[text.len() as u8], &[bytes], Undo::Keep)?;
    Ok(cache)
}

/// Writes the text to a device that has these blocks, and no text in them. A cut of the power leaves no text or all of it, whenever
/// it comes.
fn keep<D: Device>(
    alloc: Global,
    device: &mut D,
    blocks: Vec<BlockBytes>,
    text: &[u8],
) -> Result<()>
    requires two { length blocks.items ≡ 2 }
    requires short { length text.now < 256 }
    ensures cuts { Begins D.Device device.old blocks.items
        → AtEachMoment D.Device device.old device.new (IsNoneOrAll text.now) }
    ensures kept { Begins D.Device device.old blocks.items
        → OnOk result (Ends D.Device device.new text.now) }
{
    laws::crash_sets_are_closed();
    laws::executions_are_orderly();
    let mut cache = laid_on(alloc, blocks, text)?;
    let mut flights = Flights::new(alloc);
    let flushed = cache.flush(&mut flights, device);
    flights.abandon();
    flushed?;
    Ok(())
}

/// The text that these blocks hold.
fn text_of(blocks: &[BlockBytes]) -> &[u8]
    requires { length blocks.now ≡ 2 }
    ensures { result.now ≡ text_in blocks.now }
{
    let count = blocks[1].as_slice()[0];
    &blocks[0].as_slice()[..count as usize]
}

fn main(rt: HostRuntime) -> Result<()> {
    let alloc = rt.alloc();
    let _made = FileDevice::create(&rt, FILE, 2); // refused where the file is there
    let (mut device, blocks) = FileDevice::open(&rt, alloc, FILE)?;
    if blocks.len() != 2 {
        bail!("{FILE} isn't of two blocks");
    }
    let found = text_of(&blocks);
    if found.is_empty() {
        keep(alloc, &mut device, blocks, TEXT)?;
        println!(rt; "kept")?;
    } else {
        println!(rt; "found: {}", str::from_utf8(found)?)?;
    }
    Ok(())
}
END

cat > crates/my_engine/specs/Lib.antt <<'END'
pub mod Text
END

cat > crates/my_engine/specs/Text.antt <<'END'
-- A text on two blocks: its bytes in block 0, and in the first byte of block 1 how many they are, 0 where there is none.
use Rattle.std.specs.Prelude.{ℕ, ◌≡◌, ◌≤◌, ◌⊎◌, List, [], ◌∷◌, length, take, slice_index_or}
use Rattle.patch_model.specs.declared.patches.Undo.TheVariants.{Keep}
use Rattle.patch_model.specs.Step.{Create}
use Rattle.patch_model.specs.Execution.{Execution}
use Rattle.patch_device.specs.SameDevice.{IsLasting}
use Rattle.patch_device.specs.declared.devices.Device.{Ghosts}

abbrev pub length_in : List (List ℕ) → ℕ
length_in blocks = slice_index_or (slice_index_or blocks 1 []) 0 0

abbrev pub text_in : List (List ℕ) → List ℕ
text_in blocks = take (length_in blocks) (slice_index_or blocks 0 [])

-- no text, or all of it
abbrev pub IsNoneOrAll : List ℕ → List (List ℕ) → Type 0
IsNoneOrAll text blocks = (length_in blocks ≡ 0) ⊎ (text_in blocks ≡ text)

-- the bytes, and then the length, which names their patch, number 0
abbrev pub laid : List (List ℕ) → List ℕ → Execution
laid blocks text = record { first = blocks; steps = Create 0 0 text [] Keep ∷ Create 1 0 (length text ∷ []) (0 ∷ []) Keep ∷ [] }

-- an honest device that has these blocks for good, with no text in them
pub record Begins {D : Type 0} (g : Ghosts D) (device : D) (blocks : List (List ℕ)) : Type 0 where
  pub honest : g.is_honest device
  pub contents : g.contents device ≡ blocks
  pub lasts : IsLasting g device
  pub none : length_in blocks ≡ 0

-- a device that has the text for good
abbrev pub Ends : {D : Type 0} → Ghosts D → D → List ℕ → Type 0
Ends g device text = (text_in (g.contents device) ≡ text) × IsLasting g device

-- this is said of whatever a cut leaves at each moment, from the one before on
abbrev pub AtEachMoment : {D : Type 0} → Ghosts D → (before now : D) → (List (List ℕ) → Type 0) → Type 0
AtEachMoment g before now Said = (t : ℕ) (disk : List (List ℕ)) → g.moment before ≤ t → t ≤ g.moment now → g.left_at now t disk → Said disk
END

cat > crates/my_engine/proofs/Lib.antt <<'END'
pub mod Cuts
pub mod Text
END

cat > crates/my_engine/proofs/Cuts.antt <<'END'
-- What a cut leaves of an engine's blocks: at each moment the disk of a set of its patches that is closed under dependencies.
use Rattle.std.proofs.Common.{◌≡◌, ◌≢◌, ◌∙◌, ◌+◌, ◌-◌, ◌<◌, ◌≤◌, ℕ, zero, suc, inl, inr, Bool, true, false, List, [], ◌∷◌, ◌++◌, length, take, map, get_or, refl, sym, ap, subst, arith}
use Rattle.std.specs.Prelude.{◌==◌, ◌&&◌}
use Rattle.std.specs.List.{filter, list_all, list_any, range_with_len}
use Rattle.std.proofs.lemmas.Bool.{cases_Bool, and_parts, and_from, both_ways, eqb-true, eq-eqb}
use Rattle.std.proofs.lemmas.Bool.Decides.{nat_tests}
use Rattle.std.proofs.Math.Seq.{take-append-add}
use Rattle.patch_model.specs.Patch.{Patch}
use Rattle.patch_model.specs.Pile.{pile}
use Rattle.patch_model.specs.Step.{Step, Create, Merge, Send, Complete}
use Rattle.patch_model.specs.Execution.{Execution, cut, followed_by}
use Rattle.patch_model.specs.Entry.{Entry, is_durable, is_live}
use Rattle.patch_model.specs.Dependency.{depends_directly}
use Rattle.patch_model.specs.Ready.{ready}
use Rattle.patch_model.specs.State.{State, at_first, after_step, after_steps, sent, landed, entries_of, state_of}
use Rattle.patch_model.specs.Legal.{IsLegal, AreLegal}
use Rattle.patch_model.specs.Orderly.{IsOrderly}
use Rattle.patch_model.specs.Crash.{IsClosed, MayLeave, HasTrail, crash_set, disk_of}
use Rattle.patch_model.specs.Member.{In, Contains-from_In, map-In, filter-In, list_any-from, list_any-at}
use Rattle.patch_model.specs.Unchanged.{patch-sent, patch-landed}
use Rattle.patch_model.specs.State.{has_flight}
use Rattle.patch_device.specs.SameDevice.{IsSameDevice, LeavesOnly}
use Rattle.patch_device.specs.declared.devices.Device.{Ghosts}
use Rattle.patch_cache.specs.Contents.{Contents}
use Rattle.patch_cache.specs.Meaning.{IsCacheOf}
use Rattle.patch_cache.specs.Flights.{AreFlightsBeside}
use Rattle.patch_cache.specs.Running.{RunsBeside, held_by}
use Rattle.patch_cache.specs.Waves.{is_write, steps_since, HasGoneOnBeside, KeepsDiskBeside, IsFlushed}
use Rattle.patch_cache.specs.declared.flights.Flights.{Flights}
use Rattle.my_engine.specs.Text.{AtEachMoment}

-- What may be left of blocks.

abbrev pub patches_of : Execution → List Patch
patches_of run = map (λ e. e.patch) (entries_of run)

-- the blocks with those of these patches that are in the set
abbrev pub blocks_with : List (List ℕ) → List Patch → (Patch → Bool) → List (List ℕ)
blocks_with first patches set = map (λ b. pile (get_or first b []) (filter set (filter (λ p. p.block == b) patches))) (range_with_len 0 (length first))

-- they are left by a set of the patches that holds what its patches depend on
pub record IsLeft (first : List (List ℕ)) (patches : List Patch) (disk : List (List ℕ)) : Type 0 where
  pub set : Patch → Bool
  pub closed : (p q : Patch) → In patches p → In patches q → set p ≡ true → depends_directly p q ≡ true → set q ≡ true
  pub disk_is : disk ≡ blocks_with first patches set

-- Writes leave all patches as they are.

same_map : (g : Entry → Entry) → ((e : Entry) → (g e).patch ≡ e.patch) → (es : List Entry) → map (λ e. e.patch) (map g es) ≡ map (λ e. e.patch) es
same_map g keeps [] = refl
same_map g keeps (e ∷ es) = rw (keeps e, same_map g keeps es) refl

same_steps : (st : State) (steps : List Step) → list_all is_write steps ≡ true → map (λ e. e.patch) (after_steps st steps).entries ≡ map (λ e. e.patch) st.entries
same_steps st [] writes = refl
same_steps st (Send b ∷ steps) writes = same_steps (after_step st (Send b)) steps writes ∙ same_map (sent (ready st.entries b)) (patch-sent (ready st.entries b)) st.entries
same_steps st (Complete b ∷ steps) writes = same_steps (after_step st (Complete b)) steps writes ∙ same_map (landed b) (patch-landed b) st.entries
same_steps st (Create b start bytes after undo ∷ steps) writes = absurd (cc)
same_steps st (Merge a b ∷ steps) writes = absurd (cc)

steps_both : (st : State) (one more : List Step) → after_steps st (one ++ more) ≡ after_steps (after_steps st one) more
steps_both st [] more = refl
steps_both st (step ∷ one) more = steps_both (after_step st step) one more

same_patches : (run : Execution) (steps : List Step) → list_all is_write steps ≡ true → patches_of (followed_by run steps) ≡ patches_of run
same_patches run steps writes = ap (λ st. map (λ e. e.patch) st.entries) (steps_both at_first run.steps steps) ∙ same_steps (state_of run) steps writes

-- A set of entries is one of their patches, since each has a number of its own.

abbrev of_entries : List Entry → (Entry → Bool) → Patch → Bool
of_entries es set p = list_any (λ e. e.patch.no == p.no && set e) es

of_entries_is : (es : List Entry) (set : Entry → Bool) → IsOrderly es → (e : Entry) → In es e → of_entries es set e.patch ≡ set e
of_entries_is es set orderly e i = elim (cases_Bool (set e)) [
  | inl t ↦ list_any-from (λ f. f.patch.no == e.patch.no && set f) es e i (and_from _ _ (eq-eqb _ _ refl) t) ∙ sym t
  | inr n ↦ elim (cases_Bool (of_entries es set e.patch)) [
    | inl t ↦
        let f = list_any-at (λ f. f.patch.no == e.patch.no && set f) es t in
        let parts = and_parts (f.0.patch.no == e.patch.no) (set f.0) f.2 in
        let same = orderly.apart f.0 e (Contains-from_In es f.0 f.1) (Contains-from_In es e i) (eqb-true _ _ parts.0) in
        absurd (both_ways (set e) n (ap set (sym same) ∙ parts.1))
    | inr m ↦ m ∙ sym n
  ]
]

filter_patches : (p : Patch → Bool) (s : Entry → Bool) (es : List Entry) → ((e : Entry) → In es e → p e.patch ≡ s e) → map (λ e. e.patch) (filter s es) ≡ filter p (map (λ e. e.patch) es)
filter_patches p s [] same = refl
filter_patches p s (e ∷ es) same =
    let rest = filter_patches p s es (λ f i. same f (inr i)) in
    let here = same e (inl refl) in
    elim (cases_Bool (s e)) [ inl t ↦ rw (here, t) (ap (λ ps. e.patch ∷ ps) rest) | inr n ↦ rw (here, n) rest ]

map_same : {X : Type 0} → (f g : ℕ → X) → ((n : ℕ) → f n ≡ g n) → (ns : List ℕ) → map f ns ≡ map g ns
map_same f g same [] = refl
map_same f g same (n ∷ ns) = rw (same n, map_same f g same ns) refl

abbrev pub ClosedLaw : Type 0
ClosedLaw = (run : Execution) (landed : List ℕ) → IsLegal run → IsClosed (entries_of run) (crash_set landed)

abbrev pub OrderlyLaw : Type 0
OrderlyLaw = (run : Execution) → IsLegal run → IsOrderly (entries_of run)

-- so blocks with some entries are blocks with their patches
same_blocks : (run : Execution) (s : Entry → Bool) (set : Patch → Bool) → ((e : Entry) → In (entries_of run) e → set e.patch ≡ s e)
    → disk_of run s ≡ blocks_with run.first (patches_of run) set
same_blocks run s set same =
    let es = entries_of run in
    map_same _ _ (λ b. ap (pile (get_or run.first b []))
    (filter_patches set s (filter (λ e. e.patch.block == b) es) (λ e i. same e (filter-In (λ e. e.patch.block == b) es e i).0)
    ∙ ap (filter set) (filter_patches (λ p. p.block == b) (λ e. e.patch.block == b) es (λ e i. refl)))) (range_with_len 0 (length run.first))

-- What a crash leaves is left by a closed set; and where nothing is left to be written, by all patches.

left_of : ClosedLaw → OrderlyLaw → (run : Execution) (disk : List (List ℕ)) → IsLegal run → MayLeave run disk → IsLeft run.first (patches_of run) disk
left_of closes orders run disk legal left =
    let es = entries_of run in
    let s = crash_set left.landed in
    let is = of_entries_is es s (orders run legal) in
    record {
      set = of_entries es s;
      closed = λ p q i j t depends.
          let e = map-In (λ e. e.patch) es p i in
          let f = map-In (λ e. e.patch) es q j in
          let from : s e.0 ≡ true = sym (is e.0 e.1) ∙ subst (λ x. of_entries es s x ≡ true) (sym e.2) t in
          let named : depends_directly e.0.patch f.0.patch ≡ true = subst (λ x. depends_directly x f.0.patch ≡ true) (sym e.2) (subst (λ x. depends_directly p x ≡ true) (sym f.2) depends) in
          subst (λ x. of_entries es s x ≡ true) f.2
          (is f.0 f.1 ∙ closes run left.landed legal e.0 f.0 (Contains-from_In es e.0 e.1) (Contains-from_In es f.0 f.1) from named);
      disk_is = left.disk_is ∙ same_blocks run s (of_entries es s) is;
    }

landed_all : (e : Entry) (landed : List ℕ) → is_live e ≡ false → crash_set landed e ≡ true
landed_all e landed dead = elim (cases_Bool (is_durable e)) [ inl t ↦ rw t refl | inr n ↦ let live : is_live e ≡ true = rw n refl in absurd (both_ways (is_live e) dead live) ]

all_left : (run : Execution) (disk : List (List ℕ)) → IsFlushed run → MayLeave run disk → disk ≡ blocks_with run.first (patches_of run) (λ p. true)
all_left run disk flushed left =
    left.disk_is ∙ same_blocks run (crash_set left.landed) (λ p. true) (λ e i. sym (landed_all e left.landed (flushed.none e (Contains-from_In (entries_of run) e i))))

-- Where steps are cut that are writes behind a run, its patches are as they were.

legal_take : (n : ℕ) (st : State) (k : ℕ) (steps : List Step) → AreLegal n st steps → AreLegal n st (take k steps)
legal_take n st zero steps legal = tt
legal_take n st (suc k) [] legal = tt
legal_take n st (suc k) (step ∷ steps) legal = (legal.0, legal_take n (after_step st step) k steps legal.1)

writes_take : (k : ℕ) (steps : List Step) → list_all is_write steps ≡ true → list_all is_write (take k steps) ≡ true
writes_take zero steps writes = refl
writes_take (suc k) [] writes = refl
writes_take (suc k) (step ∷ steps) writes = let parts = and_parts (is_write step) (list_all is_write steps) writes in and_from _ _ parts.0 (writes_take k steps parts.1)

cut_behind : (run : Execution) (steps : List Step) (n : ℕ) → length run.steps ≤ n → cut n (followed_by run steps) ≡ followed_by run (take (n - length run.steps) steps)
cut_behind run steps n low =
    let more = n - length run.steps in
    let many : n ≡ length run.steps + more = omega arith in
    ap (λ m. cut m (followed_by run steps)) many ∙ ap (λ all. let v : Execution = record { first = run.first; steps = all } in v) (take-append-add run.steps steps more)

cut_left : ClosedLaw → OrderlyLaw → (run : Execution) (steps : List Step) (n : ℕ) (disk : List (List ℕ)) → IsLegal (followed_by run steps) → list_all is_write steps ≡ true
    → length run.steps ≤ n → MayLeave (cut n (followed_by run steps)) disk → IsLeft run.first (patches_of run) disk
cut_left closes orders run steps n disk legal writes low left =
    let k = n - length run.steps in
    let all = followed_by run steps in
    let cut_legal : IsLegal (cut n all) = record { some = legal.some; few = legal.few; blocks = legal.blocks; steps = legal_take (length run.first) at_first n all.steps legal.steps } in
    let same : patches_of (cut n all) ≡ patches_of run = ap patches_of (cut_behind run steps n low) ∙ same_patches run (take k steps) (writes_take k steps writes) in
    subst (λ ps. IsLeft run.first ps disk) same (left_of closes orders (cut n all) disk cut_legal left)

-- What is said of each disk that a crash may leave is said of each moment of a trail.
at_moment : (run : Execution) (left_at : ℕ → List (List ℕ) → Type 0) (Said : List (List ℕ) → Type 0) (least : ℕ)
    → ((n : ℕ) (disk : List (List ℕ)) → least ≤ n → MayLeave (cut n run) disk → Said disk)
    → (counts : List ℕ) (moment from : ℕ) → least ≤ from → HasTrail run left_at moment from counts
    → (t : ℕ) (disk : List (List ℕ)) → moment ≤ t → t < moment + length counts → left_at t disk → Said disk
at_moment run left_at Said least said [] moment from low trail t disk late early left = absurd (omega arith)
at_moment run left_at Said least said (n ∷ counts) moment from low trail t disk late early left =
    let up = trail.0 in
    elim (cases_Bool (t == moment)) [
      | inl here ↦ said n disk (omega (arith, up)) (trail.1 disk (subst (λ m. left_at m disk) (eqb-true t moment here) left))
      | inr there ↦
          let other : t ≢ moment = grind (arith, nat_tests) in
          at_moment run left_at Said least said counts (suc moment) n (omega (arith, up)) trail.2 t disk (omega (arith, other)) (omega arith) left
    ]

-- What a stretch of writes leaves, as `Cache::flush` ensures it.

abbrev pub Ran : {A : Type 0} → (old now : Contents) → (before after : Flights A) → Type 0
Ran old now before after = (others : Bool) (run : Execution) → RunsBeside others old before run → HasGoneOnBeside others run (steps_since old now) now after

abbrev pub Kept : {A D : Type 0} → Ghosts D → (old now : Contents) → Flights A → (before after : D) → Type 0
Kept g old now flights before after = g.is_honest before → (others : Bool) → KeepsDiskBeside g others old now flights before after

-- where no write is under way and none is held
pub runs_still : {A : Type 0} → (old : Contents) (flights : Flights A) (run : Execution) → IsCacheOf old run → (state_of run).flights ≡ [] → held_by flights ≡ [] → RunsBeside false old flights run
runs_still {A = A} old flights run shows none empty = record {
  cache_is = shows;
  flights_are = subst (λ held. AreFlightsBeside false run held) (sym empty) (let still : AreFlightsBeside {A = A} false run [] = record {
    each = λ flight i. absurd i;
    all = λ all block flying. absurd (both_ways (has_flight (state_of run) block) (ap (λ fs. list_any (λ f. f.0 == block) fs) none) flying);
    once = λ i j e f at_i at_j same. absurd (cc);
  } in still);
}

-- at each moment a closed set
pub cuts_leave : ClosedLaw → OrderlyLaw → {A D : Type 0} → (g : Ghosts D) (old now : Contents) (flights held : Flights A) (before after : D) (run : Execution)
    → RunsBeside false old flights run → Ran old now flights held → Kept g old now flights before after → IsSameDevice g before after
    → g.is_honest before → LeavesOnly g before (MayLeave run) → AtEachMoment g before after (IsLeft run.first (patches_of run))
cuts_leave closes orders g old now flights held before after run runs ran kept same honest first t disk late early left =
    let went = ran false run runs in
    let safe = (kept honest false run runs).crash first in
    elim (cases_Bool (t == g.moment before)) [
      | inl at ↦
          let here = subst (λ m. g.left_at after m disk) (eqb-true t (g.moment before) at) left in
          left_of closes orders run disk runs.cache_is.legal (first disk ((same.time.past (g.moment before) disk (omega arith)).1 here))
      | inr later ↦
          let other : t ≢ g.moment before = grind (arith, nat_tests) in
          let end = safe.moments in
          at_moment (followed_by run (steps_since old now)) (g.left_at after) (IsLeft run.first (patches_of run)) (length run.steps)
          (λ n d low may. cut_left closes orders run (steps_since old now) n d went.runs.cache_is.legal went.writes low may)
          safe.counts (suc (g.moment before)) (length run.steps) (omega arith) safe.trail t disk (omega (arith, late, other)) (omega (arith, early, end)) left
    ]

-- and in the end all patches
pub flush_leaves : {A D : Type 0} → (g : Ghosts D) (old now : Contents) (flights held : Flights A) (before after : D) (run : Execution)
    → RunsBeside false old flights run → Ran old now flights held → Kept g old now flights before after
    → g.is_honest before → LeavesOnly g before (MayLeave run) → IsFlushed (followed_by run (steps_since old now)) → g.left_at after (g.moment after) (g.contents after)
    → g.contents after ≡ blocks_with run.first (patches_of run) (λ p. true)
flush_leaves g old now flights held before after run runs ran kept honest first flushed lands =
    let steps = steps_since old now in
    all_left (followed_by run steps) (g.contents after) flushed (((kept honest false run runs).crash first).left (g.contents after) lands)
    ∙ ap (λ ps. blocks_with run.first ps (λ p. true)) (same_patches run steps (ran false run runs).writes)
END

cat > crates/my_engine/proofs/Text.antt <<'END'
-- Why a cut leaves no text or all of it.
use Rattle.std.proofs.Common.{◌≡◌, ◌∙◌, ◌+◌, ℕ, inl, inr, true, false, List, [], ◌∷◌, length, drop, refl, sym, ap, subst, arith}
use Rattle.std.proofs.lemmas.Bool.{cases_Bool}
use Rattle.std.proofs.lemmas.List.{take_at}
use Rattle.patch_model.specs.declared.patches.Undo.TheVariants.{Keep}
use Rattle.patch_model.specs.Patch.{Patch}
use Rattle.patch_model.specs.Execution.{Execution, followed_by}
use Rattle.patch_model.specs.Crash.{MayLeave}
use Rattle.patch_device.specs.SameDevice.{IsSameDevice, LeavesOnly}
use Rattle.patch_device.specs.declared.devices.Device.{Ghosts}
use Rattle.patch_cache.specs.Contents.{Contents}
use Rattle.patch_cache.specs.Meaning.{IsCacheOf}
use Rattle.patch_cache.specs.Running.{RunsBeside, held_by}
use Rattle.patch_cache.specs.Waves.{steps_since, IsFlushed}
use Rattle.patch_cache.specs.declared.flights.Flights.{Flights}
use Rattle.my_engine.specs.Text.{length_in, text_in, IsNoneOrAll, laid, Begins, AtEachMoment}
use Rattle.my_engine.proofs.Cuts.{patches_of, blocks_with, IsLeft, ClosedLaw, OrderlyLaw, Ran, Kept, runs_still, cuts_leave, flush_leaves}

abbrev text_patch : List ℕ → Patch
text_patch text = record { no = 0; block = 0; start = 0; bytes = text; after = []; undo = Keep }

abbrev length_patch : List ℕ → Patch
length_patch text = record { no = 1; block = 1; start = 0; bytes = length text ∷ []; after = 0 ∷ []; undo = Keep }

-- both patches leave the text
pub all_of_it : (blocks : List (List ℕ)) (text : List ℕ) (disk : List (List ℕ)) → length blocks ≡ 2 → disk ≡ blocks_with blocks (patches_of (laid blocks text)) (λ p. true) → text_in disk ≡ text
all_of_it (a ∷ b ∷ []) text disk two is = ap text_in is ∙ take_at text (drop (0 + length text) a) (length text) refl
all_of_it [] text disk two is = absurd (omega arith)
all_of_it (a ∷ []) text disk two is = absurd (omega arith)
all_of_it (a ∷ b ∷ c ∷ blocks) text disk two is = absurd (omega arith)

-- a set that has the length has the text, which it names
pub none_or_all : (blocks : List (List ℕ)) (text : List ℕ) (disk : List (List ℕ)) → length blocks ≡ 2 → length_in blocks ≡ 0 → IsLeft blocks (patches_of (laid blocks text)) disk → IsNoneOrAll text disk
none_or_all (a ∷ b ∷ []) text disk two none left =
    let x = text_patch text in
    let y = length_patch text in
    subst (IsNoneOrAll text) (sym left.disk_is) (elim (cases_Bool (left.set y)) [
      | inl t ↦ rw (t, left.closed y x (inr (inl refl)) (inl refl) t refl) (inr (take_at text (drop (0 + length text) a) (length text) refl))
      | inr n ↦ rw n (inl none)
    ])
none_or_all [] text disk two none left = absurd (omega arith)
none_or_all (a ∷ []) text disk two none left = absurd (omega arith)
none_or_all (a ∷ b ∷ c ∷ blocks) text disk two none left = absurd (omega arith)

-- what a cut leaves at first a crash may leave, before a write begins
pub laid_left : {D : Type 0} → (g : Ghosts D) (device : D) (blocks : List (List ℕ)) (text : List ℕ) → length blocks ≡ 2 → Begins g device blocks → LeavesOnly g device (MayLeave (laid blocks text))
laid_left g device (a ∷ b ∷ []) text two begins disk left = record { landed = []; disk_is = begins.lasts disk left ∙ begins.contents }
laid_left g device [] text two begins disk left = absurd (omega arith)
laid_left g device (a ∷ []) text two begins disk left = absurd (omega arith)
laid_left g device (a ∷ b ∷ c ∷ blocks) text two begins disk left = absurd (omega arith)

-- So a flush of both keeps what the engine promises.

pub cuts : ClosedLaw → OrderlyLaw → {A D : Type 0} → (g : Ghosts D) (old now : Contents) (flights held : Flights A) (before after : D) (blocks : List (List ℕ)) (text : List ℕ)
    → length blocks ≡ 2 → IsCacheOf old (laid blocks text) → held_by flights ≡ [] → Ran old now flights held → Kept g old now flights before after → IsSameDevice g before after
    → Begins g before blocks → AtEachMoment g before after (IsNoneOrAll text)
cuts closes orders g old now flights held before after blocks text two shows empty ran kept same begins t disk late early left =
    let run = laid blocks text in
    none_or_all blocks text disk two begins.none
    (cuts_leave closes orders g old now flights held before after run (runs_still old flights run shows refl empty) ran kept same begins.honest
    (laid_left g before blocks text two begins) t disk late early left)

pub ends : {A D : Type 0} → (g : Ghosts D) (old now : Contents) (flights held : Flights A) (before after : D) (blocks : List (List ℕ)) (text : List ℕ)
    → length blocks ≡ 2 → IsCacheOf old (laid blocks text) → held_by flights ≡ [] → Ran old now flights held → Kept g old now flights before after
    → ((run : Execution) → RunsBeside false old flights run → IsFlushed (followed_by run (steps_since old now))) → g.left_at after (g.moment after) (g.contents after)
    → Begins g before blocks → text_in (g.contents after) ≡ text
ends g old now flights held before after blocks text two shows empty ran kept flushed lands begins =
    let run = laid blocks text in
    let runs = runs_still old flights run shows refl empty in
    all_of_it blocks text (g.contents after) two
    (flush_leaves g old now flights held before after run runs ran kept begins.honest (laid_left g before blocks text two begins) (flushed run runs) lands)
END

cat > crates/my_engine/proofs/keep/Answers.antt <<'END'
use Rattle.my_engine.proofs.Text.{cuts, ends}
use Rattle.my_engine.proofs.keep.Goals as goal

pub returns-in_err-flushed-clause-cuts : goal.returns-in_err-flushed-clause-cuts
returns-in_err-flushed-clause-cuts g c =
    let flush = c.flush-flushed in
    cuts c.crash_sets_are_closed.ensures.closed c.executions_are_orderly.ensures.patches g.D.Device c.in_ok-cache.cache flush.new.self c.new-flights.result flush.new.flights
    c.args.device.now flush.new.device c.args.blocks.items c.args.text.now c.requires.two c.in_ok-cache.ensures c.new-flights.ensures flush.ensures.ran flush.ensures.disk flush.ensures.device

pub returns-clause-cuts : goal.returns-clause-cuts
returns-clause-cuts g c =
    let flush = c.flush-flushed in
    cuts c.crash_sets_are_closed.ensures.closed c.executions_are_orderly.ensures.patches g.D.Device c.in_ok-cache.cache flush.new.self c.new-flights.result flush.new.flights
    c.args.device.now flush.new.device c.args.blocks.items c.args.text.now c.requires.two c.in_ok-cache.ensures c.new-flights.ensures flush.ensures.ran flush.ensures.disk flush.ensures.device

pub returns-clause-kept : goal.returns-clause-kept
returns-clause-kept g c begins =
    let flush = c.flush-flushed in
    let done = c.in_ok-flushed.ensures in (
      ends g.D.Device c.in_ok-cache.cache flush.new.self c.new-flights.result flush.new.flights c.args.device.now flush.new.device c.args.blocks.items c.args.text.now c.requires.two
          c.in_ok-cache.ensures c.new-flights.ensures flush.ensures.ran flush.ensures.disk done.flushed (g.met.D.Device.all_may_land flush.new.device (flush.ensures.device.honesty.0 begins.honest)) begins,
      done.lasts begins.honest begins.lasts,
    )
END

cat > crates/my_engine/proofs/laid_on/Answers.antt <<'END'
use Rattle.std.proofs.Common.{[], ◌∷◌, length, subst}
use Rattle.patch_model.specs.declared.patches.Undo.TheVariants.{Keep}
use Rattle.patch_model.specs.Step.{Create}
use Rattle.patch_model.specs.Execution.{Execution}
use Rattle.patch_cache.specs.Meaning.{IsCacheOf}
use Rattle.my_engine.proofs.laid_on.Goals as goal

pub returns : goal.returns
returns c =
    let text = c.args.text.now in
    let one = c.in_ok-bytes.ensures.made _ c.in_ok-cache.ensures.answer in
    let both = c.in_ok-create.ensures.made _ one.2 in
    subst (λ n. IsCacheOf c.create-2.new.self (let run : Execution = record { first = c.args.blocks.items; steps = Create 0 0 text [] Keep ∷ Create 1 0 (length text ∷ []) (n ∷ []) Keep ∷ [] } in run)) one.1 both.2
END

cat > crates/my_engine/stdout <<'END'
kept
END

grep -q '^my_engine:' crates.txt || echo 'my_engine: patch_model patch_device patch_cache anyhow' >> crates.txt
