---- MODULE TwoPhaseCommit ----
CONSTANT Participants

(* Participants vote, and a coordinator decides for all of them.

--fair algorithm TwoPhaseCommit {
  variables vote = [p \in Participants |-> "none"], outcome = [p \in Participants |-> "working"], decision = "none";

  define {
    AllYes == \A p \in Participants : vote[p] = "yes"
    SomeNo == \E p \in Participants : vote[p] = "no"
  }

  process (Participant \in Participants) {
    Vote:
      either { vote[self] := "yes"; outcome[self] := "prepared" }
      or { vote[self] := "no"; outcome[self] := "aborted" };
    Learn:
      await decision # "none";
      outcome[self] := decision
  }

  process (Coordinator = "coordinator") {
    Decide:
      either { await AllYes; decision := "committed" }
      or { await SomeNo; decision := "aborted" }
  }
}
*)
\* BEGIN TRANSLATION
VARIABLES vote, outcome, decision, pc

AllYes == \A p \in Participants : vote[p] = "yes"

SomeNo == \E p \in Participants : vote[p] = "no"

vars == <<vote, outcome, decision, pc>>

ProcSet == Participants \cup {"coordinator"}

Init ==
  /\ vote = [p \in Participants |-> "none"]
  /\ outcome = [p \in Participants |-> "working"]
  /\ decision = "none"
  /\ pc = [self \in ProcSet |-> CASE (self \in Participants) -> "Vote" [] (self = "coordinator") -> "Decide"]

Vote(self) ==
  /\ (pc[self] = "Vote")
  /\
       \/
            /\ vote' = [vote EXCEPT ![self] = "yes"]
            /\ outcome' = [outcome EXCEPT ![self] = "prepared"]
       \/
            /\ vote' = [vote EXCEPT ![self] = "no"]
            /\ outcome' = [outcome EXCEPT ![self] = "aborted"]
  /\ pc' = [pc EXCEPT ![self] = "Learn"]
  /\ UNCHANGED <<decision>>

Learn(self) ==
  /\ (pc[self] = "Learn")
  /\ (decision # "none")
  /\ outcome' = [outcome EXCEPT ![self] = decision]
  /\ pc' = [pc EXCEPT ![self] = "Done"]
  /\ UNCHANGED <<vote, decision>>

Participant(self) ==
  \/ Vote(self)
  \/ Learn(self)

Decide ==
  /\ (pc["coordinator"] = "Decide")
  /\
       \/
            /\ (AllYes)
            /\ decision' = "committed"
       \/
            /\ (SomeNo)
            /\ decision' = "aborted"
  /\ pc' = [pc EXCEPT !["coordinator"] = "Done"]
  /\ UNCHANGED <<vote, outcome>>

Coordinator ==
  \/ Decide

Terminating ==
  /\ (\A self \in ProcSet : pc[self] = "Done")
  /\ UNCHANGED vars

Next ==
  \/ \E self \in Participants : Participant(self)
  \/ Coordinator
  \/ Terminating

Spec ==
  /\ Init
  /\ [][Next]_vars
  /\ WF_vars(Next)

Termination == <>(\A self \in ProcSet : pc[self] = "Done")
\* END TRANSLATION
====
