---- MODULE TwoPhaseCommit ----
CONSTANT Participants

(* Participants vote, and a coordinator decides for all of them.

--fair algorithm TwoPhaseCommit {
  variables vote = [p \in Participants |-> "none"], outcome = [p \in Participants |-> "working"], decision = "none";

  define {
    AllYes == \A p \in Participants : vote[p] = "yes"
    SomeNo == \E p \in Participants : vote[p] = "no"
  }

  process (Participant \in Participants) {
    Vote:
      either { vote[self] := "yes"; await ~SomeNo; outcome[self] := "prepared" }
      or { vote[self] := "no"; outcome[self] := "aborted" };
    Learn:
      await decision # "none";
      outcome[self] := decision
  }

  process (Coordinator = "coordinator") {
    Decide:
      either { await AllYes; decision := "committed" }
      or { await SomeNo; decision := "aborted" }
  }
}
*)
====
