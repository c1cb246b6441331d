"""Wrong definitions: small changes of crates/definition/specs, each of the right shape. `teeth` gives them to the prover, `clauses.py` plays them.

Of each: its name, the change in words, clauses that it breaks (`clauses.py` confirms them), and the edits: a file of crates/definition, or of another
crate where that stands before it, a text that stands in it once, and what stands there instead. An edit of proofs/ is there where a law still holds
and its proof goes by the form of the changed line. The clauses are those of crates/theorems/specs/Statement; the last is that of crates/alone."""
from collections import namedtuple

Change = namedtuple("Change", "name words breaks edits")

CLAUSES = ("balance", "once", "not_early", "guarded", "never_damaged", "order", "alone")

# `help-same-node`, of crates/theorems, proofs/HeldNodes: a node with a next is not ahead of the tail, which is the last or the last but one
HELPED = """(λ won wrote. on_holds (Place.Push f (PushAt.Next new onto)) o (then_stays f ht, helped)),
          (λ lost wrote. on_holds (Place.Push f (PushAt.Next new onto)) o (then_stays f ht, helped)),
        )
          where
            behind : (b : Bool) → leb (g.pos onto.0) (g.pos (tail_of m.shared)) ≡ b → g.pos onto.0 ≤ g.pos (tail_of m.shared)
            behind true e = leb-true (g.pos onto.0) (g.pos (tail_of m.shared)) e
            behind false e =
                let lt = leb-false (g.pos onto.0) (g.pos (tail_of m.shared)) e in
                let to = goes_to line onto.0 next.0 h.0.0 h.0.1.0 (omega arith) h.1 in
                let inr : next.0 < M = rw (h.1, index-link next.0) at (next_in onto.0 h.0.0 (rw h.1 (link_not_null next.0))) in
                let le = line.pos_le next.0 inr to.0 in
                let near = line.near in
                let one = to.1 in
                absurd (omega arith)

            helped : HoldsPush M m' g' (g.gpin d) (PushAt.Next new onto)
            helped = unfold HoldsPush SafeNode in (safe_stays onto.0 h.0, behind_tail onto.0 h.0.1.0 (behind _ refl))"""

CHANGES = [
    # ---- when a bag expires, and by what
    Change("distance-one", "a bag expires at distance 1", ("not_early",), [
        ("specs/Bags", "le_z (pos 2) (wrapping_sub global sealed)", "le_z (pos 1) (wrapping_sub global sealed)")]),
    Change("unsigned-distance", "the distance is taken without its sign", ("not_early",), [
        ("specs/Bags", "le_z (pos 2) (wrapping_sub global sealed)", "leb 2 (gap global sealed / 2)"),
        ("specs/Bags", "use Rattle.epoch.specs.Epoch.{wrapping_sub}", "use Rattle.std.specs.Prelude.{leb}\nuse Rattle.epoch.specs.Epoch.{gap}")]),
    Change("pops-ahead", "pops are judged one epoch ahead", ("not_early",), [
        ("specs/Queue", "is_expired (sealed (node_at w)) p.epoch.0", "is_expired (sealed (node_at w)) (successor p.epoch.0)"),
        ("specs/Queue", "use Rattle.definition.specs.Base.{branch}", "use Rattle.epoch.specs.Epoch.{successor}\nuse Rattle.definition.specs.Base.{branch}")]),
    Change("own-seal", "a bag is sealed with its sealer's own word", ("not_early",), [
        ("specs/Step", "record { epoch = e; len", "record { epoch = unpinned (t.shared.word p); len"),
        ("specs/Step", "use Rattle.definition.specs.Links.{null}", "use Rattle.epoch.specs.Epoch.{unpinned}\nuse Rattle.definition.specs.Links.{null}")]),
    Change("older-seal", "a bag is sealed with the epoch before", ("not_early",), [
        ("specs/Queue", "Work.Seal spare (epoch w)", "Work.Seal spare (epoch (w - 2))")]),
    # ---- when the global epoch advances
    Change("pinned-passed", "a walk passes over a word that is pinned in another epoch", ("not_early",), [
        ("specs/Internal", "(advanced t.owner t.epoch o) (walk t (Pred.Entry curr) succ o)", "(walk t (Pred.Entry curr) succ o) (walk t (Pred.Entry curr) succ o)")]),
    Change("stalled-advances", "a stalled walk advances the epoch", ("not_early",), [
        ("specs/List", "Rule.load Word.ListHead (λ w. advanced t.owner t.epoch o)", "Rule.load Word.ListHead (λ w. on (Place.AdvanceStore t) o)")]),
    Change("lost-unlink-skips", "a walk that lost its unlink goes on behind the entry, not with what it found", (), [
        ("specs/List", "(walk t c.pred (pointee w) o)", "(walk t c.pred succ o)"),
        ("proofs/Kept", "(walk-kept t c.pred (pointee seen.value) o h.0.0 (pointee_in seen.value w))", "(walk-kept t c.pred succ o h.0.0 h.1)")]),
    # ---- pinning
    Change("pin-newer", "a pin stores the word of the next epoch", ("not_early",), [
        ("specs/Internal", "(pinned e.0) (pin_counted k o)", "(pinned (successor e.0)) (pin_counted k o)")]),
    Change("pin-no-word", "a pin stores no pinned word", ("guarded",), [
        ("specs/Internal", "(pinned e.0) (pin_counted k o)", "starting (pin_counted k o)")]),
    Change("unpin-keeps", "an unpin leaves its word pinned", ("guarded",), [
        ("specs/Internal", "starting (branch (eqb o.counts.handles 0)", "(pinned starting) (branch (eqb o.counts.handles 0)")]),
    Change("repin-unpins", "a repin stores the global epoch, not pinned", ("guarded",), [
        ("specs/Internal", "(RepinAt.Store (epoch (pinned w)))", "(RepinAt.Store (epoch w))")]),
    # ---- retiring and freeing
    Change("token-dropped", "a token is dropped where the bag is full", ("balance",), [
        ("specs/Calls", "begins (Call.Defer token) o = defer (Deferring.Token token) o",
         "begins (Call.Defer token) o = branch (eqb o.held max_objects) (done 0 o) (defer (Deferring.Token token) o)"),
        ("proofs/Opens", "defer-kept N M (Deferring.Token token) o (token_in_lem N M token h)", "pick-kept N M _ _ _ (done-kept N M 0 o) (defer-kept N M (Deferring.Token token) o (token_in_lem N M token h))"),
        ("proofs/Opens", "begins_none (Call.Defer token) o = branch_ind Frees-none _ (λ _. refl) (λ _. refl)",
         "begins_none (Call.Defer token) o = branch_ind Frees-none _ (λ _. refl) (λ _. branch_ind Frees-none _ (λ _. refl) (λ _. refl))")]),
    Change("item-forgotten", "an item that waited for a push is forgotten after it", ("balance",), [
        ("specs/Flow", "pushed (Then.Defer d) o = defer d o", "pushed (Then.Defer d) o = done 0 o"),
        ("proofs/Within", "pushed_in (Then.Defer d) o h = defer_in d o h", "pushed_in (Then.Defer d) o h = done_in 0 o"),
        ("proofs/Kept", "pushed-kept (Then.Defer d) o h = defer-kept d o h", "pushed-kept (Then.Defer d) o h = done-kept 0 o"),
        ("proofs/Kept", "pushed_share (Then.Defer d) o h = defer_share d o h", "pushed_share (Then.Defer d) o h = done_share 0 o")]),
    Change("bag-kept", "a sealed bag stays with its participant too", ("balance", "once"), [
        ("specs/Queue", "(sharing (o.share - 1) (holding 0 o))", "(sharing (o.share - 1) o)")]),
    Change("length-kept", "a freed bag keeps its length", (), [
        ("specs/Step", "epoch = (t.bag n).epoch; len = 0;", "epoch = (t.bag n).epoch; len = (t.bag n).len;")]),
    Change("head-bag-freed", "the old head's bag is freed in place of the popped one", ("balance",), [
        ("specs/Flow", "(waiting (Deferring.Node p head next)) next)", "(waiting (Deferring.Node p head next)) head)"),
        ("proofs/Within", "placed_in (Deferring.Node p head next) o h = also_in _ _ h.1", "placed_in (Deferring.Node p head next) o h = also_in _ _ (h.1.0, h.1.0)")]),
    Change("slot-not-retired", "an unlinked slot is not retired", (), [
        ("specs/List", "(defer (Deferring.Slot t c succ) o)", "(walk t c.pred succ o)"),
        ("proofs/Kept", "(defer-kept (Deferring.Slot t c succ) o h)", "(walk-kept t c.pred succ o h.0.0 h.1)")]),
    # ---- the queue
    Change("lost-link", "a push that lost its link returns as if it had pushed", ("balance",), [
        ("specs/Queue", "(on (Place.Push then (PushAt.Move new onto)) o)\n    (λ w. on (Place.Push then (PushAt.Tail new)) o)",
         "(on (Place.Push then (PushAt.Move new onto)) o)\n    (λ w. pushed then o)")]),
    Change("link-by-store", "a push links its node by a plain store", ("balance", "order"), [
        ("specs/Queue", "Rule.exchange (Word.NodeNext onto) null (link new.0)\n    (on (Place.Push then (PushAt.Move new onto)) o)\n    (λ w. on (Place.Push then (PushAt.Tail new)) o)",
         "Rule.store (Word.NodeNext onto) (link new.0) (on (Place.Push then (PushAt.Move new onto)) o)")]),
    Change("lost-exchange", "a pop that lost its exchange goes on as if it had won", ("balance", "order"), [
        ("specs/Queue", "(λ w. on (Place.Pop p PopAt.Head) o)\n", "(λ w. on (Place.Pop p (PopAt.Tail head next)) o)\n")]),
    Change("head-at-exchange", "the old head is retired, and the bag freed, at the exchange", ("order",), [
        ("specs/Queue", "(on (Place.Pop p (PopAt.Tail head next)) o)", "(defer (Deferring.Node p head next) o)")]),
    # ---- going on after a loss: nothing is freed early, lost or damaged by these, and crates/theorems accepts them; but somebody is never done
    Change("lost-unlink-same", "a walk that lost its unlink goes on with the same entry", ("alone",), [
        ("specs/List", "(walk t c.pred (pointee w) o)", "(walk t c.pred (Ptr.At c.curr) o)"),
        ("specs/List", "use Rattle.definition.specs.Rule.{Rule}", "use Rattle.definition.specs.Rule.{Rule}\nuse Rattle.definition.specs.Types.{Ptr}"),
        ("proofs/Kept", "(walk-kept t c.pred (pointee seen.value) o h.0.0 (pointee_in seen.value w))",
         "(walk-kept t c.pred (Ptr.At c.curr) o h.0.0 (unfold PtrIn in h.0.1))"),
        ("theorems/proofs/HeldSlots", "(pointee w) o pred (links_safe st (pointee w) (pred-links b c.pred holds.0.0 plain))",
         "(Ptr.At c.curr) o pred (st.safe c.curr.0 holds.0.1)"),
        ("theorems/proofs/HeldSlots", "SlotsAt SlotsThen holds_slots HoldsWalk\n    own_slots", "SlotsAt SlotsThen holds_slots HoldsWalk SafePtr\n    own_slots"),
        ("theorems/proofs/Walks", "(pointee (read (pred_word r.pred) s)) o (λ lt.\n            (pred-reached c r.pred holds.0.0 plain (h lt).0.0 (h lt).1.1, (h lt).1.1))",
         "(Ptr.At r.curr) o (λ lt. unfold Reached in (h lt).1)")]),
    Change("help-same-node", "a push that helped goes on with the same node, not from the tail", ("alone",), [
        ("specs/Queue", "(link onto.0) (link next.0)\n    (on (Place.Push then (PushAt.Tail new)) o)\n    (λ w. on (Place.Push then (PushAt.Tail new)) o)",
         "(link onto.0) (link next.0)\n    (on (Place.Push then (PushAt.Next new onto)) o)\n    (λ w. on (Place.Push then (PushAt.Next new onto)) o)"),
        ("theorems/proofs/Room", "let again = on_room (Place.Push f (PushAt.Tail new)) o (push_on f (PushAt.Help new onto next) (PushAt.Tail new) _ _ h.0, tt)",
         "let again = on_room (Place.Push f (PushAt.Next new onto)) o (push_on f (PushAt.Help new onto next) (PushAt.Next new onto) _ _ h.0, tt)"),
        ("theorems/proofs/Walks", "pushes f (PushAt.Help new onto next) (PushAt.Tail new) o h,\n        λ _. pushes f (PushAt.Help new onto next) (PushAt.Tail new) o h,",
         "pushes f (PushAt.Help new onto next) (PushAt.Next new onto) o h,\n        λ _. pushes f (PushAt.Help new onto next) (PushAt.Next new onto) o h,"),
        ("theorems/proofs/HeldNodes", "use lib.Dec.{eqb}", "use lib.Dec.{eqb, leb}"),
        ("theorems/proofs/HeldNodes", "eq-eqb, leb-true}", "eq-eqb, leb-true, leb-false}"),
        ("theorems/proofs/HeldNodes", "(λ won wrote. on_holds (Place.Push f (PushAt.Tail new)) o (then_stays f ht, tt)),\n"
         "          (λ lost wrote. on_holds (Place.Push f (PushAt.Tail new)) o (then_stays f ht, tt)),\n        )", HELPED)]),
    Change("lost-pop-stays", "a pop that lost its exchange stays at its exchange", ("alone",), [
        ("specs/Queue", "(λ w. on (Place.Pop p PopAt.Head) o)\n", "(λ w. on (Place.Pop p (PopAt.Exchange head next)) o)\n"),
        ("theorems/proofs/HeldNodes", "(λ lost wrote. bare-holds _ (unfold Bare BareAt on in tt)),",
         "(λ lost wrote. on_holds (Place.Pop q (PopAt.Exchange head next)) o (pop-stays q (PopAt.Exchange head next) old h)),")]),
    # ---- marked steps
    Change("marked-stores", "a link that fails for no reason stores all the same", ("never_damaged",), [
        ("specs/Step", "(follow p (follows r (missed (sees (asks r) t.shared))) t) (take_step M p t)",
         "(follow p (follows r (missed (sees (asks r) t.shared))) (with_shared (leaves (asks r) t.shared) t)) (take_step M p t)")]),
    Change("marked-links", "a registering whose link fails for no reason is done as if it were linked", ("not_early",), [
        ("specs/Step", "(follow p (follows r (missed (sees (asks r) t.shared))) t)", "(follow p (follows r (sees (asks r) t.shared)) t)")]),
    # ---- nodes set aside
    Change("finalize-no-node", "a finalize sets no node aside for its own push", ("never_damaged",), [
        ("specs/Calls", "branch (finalizes Call.Release o) (1 + pin_needs N o) 0", "branch (finalizes Call.Release o) (pin_needs N o) 0")]),
    Change("pin-too-few", "a pin that collects does not reckon with what its bag holds", ("never_damaged",), [
        ("specs/Calls", "branch (collects o.counts.pins) (overflow N o.held) 0", "branch (collects o.counts.pins) (overflow N 0) 0")]),
    Change("aside-kept", "nodes set aside are never given back to the total", ("never_damaged",), [
        ("specs/Step", "(t.aside - (t.own p).share + a.participant.share)", "(t.aside + a.participant.share)")]),
]
