---- MODULE Ring ----
EXTENDS Integers, Sequences
CONSTANT N

(* Nodes in a ring choose the one with the greatest number.

--algorithm Ring {
  variables inbox = [n \in 1..N |-> <<>>], leader = 0;

  macro Send(to, number) { inbox[to] := Append(inbox[to], number) }

  fair process (Node \in 1..N)
    variable token = 0;
  {
    Start:
      Send((self % N) + 1, self);
    Wait:
      while (leader = 0) {
        either { await leader # 0 }
        or {
          await inbox[self] # <<>>;
          token := Head(inbox[self]);
          inbox[self] := Tail(inbox[self]);
          Pass:
            if (token > self) Send((self % N) + 1, token)
            else if (token = self) leader := self
        }
      }
  }
}
*)
\* BEGIN TRANSLATION
VARIABLES inbox, leader, pc, token

vars == <<inbox, leader, pc, token>>

ProcSet == 1..N

Init ==
  /\ inbox = [n \in (1..N) |-> <<>>]
  /\ leader = 0
  /\ token = [self \in (1..N) |-> 0]
  /\ pc = [self \in ProcSet |-> "Start"]

Start(self) ==
  /\ (pc[self] = "Start")
  /\ inbox' = [inbox EXCEPT ![(self % N) + 1] = Append(inbox[(self % N) + 1], self)]
  /\ pc' = [pc EXCEPT ![self] = "Wait"]
  /\ UNCHANGED <<leader, token>>

Wait(self) ==
  /\ (pc[self] = "Wait")
  /\ IF leader = 0
     THEN
       /\
            \/
                 /\ (leader # 0)
                 /\ pc' = [pc EXCEPT ![self] = "Wait"]
                 /\ UNCHANGED <<inbox, token>>
            \/
                 /\ (inbox[self] # <<>>)
                 /\ token' = [token EXCEPT ![self] = Head(inbox[self])]
                 /\ inbox' = [inbox EXCEPT ![self] = Tail(inbox[self])]
                 /\ pc' = [pc EXCEPT ![self] = "Pass"]
     ELSE
       /\ pc' = [pc EXCEPT ![self] = "Done"]
       /\ UNCHANGED <<inbox, token>>
  /\ UNCHANGED <<leader>>

Pass(self) ==
  /\ (pc[self] = "Pass")
  /\ IF token[self] > self
     THEN
       /\ inbox' = [inbox EXCEPT ![(self % N) + 1] = Append(inbox[(self % N) + 1], token[self])]
       /\ UNCHANGED <<leader>>
     ELSE
       /\ IF token[self] = self
          THEN
            /\ leader' = self
          ELSE
            /\ UNCHANGED <<leader>>
       /\ UNCHANGED <<inbox>>
  /\ pc' = [pc EXCEPT ![self] = "Wait"]
  /\ UNCHANGED <<token>>

Node(self) ==
  \/ Start(self)
  \/ Wait(self)
  \/ Pass(self)

Terminating ==
  /\ (\A self \in ProcSet : pc[self] = "Done")
  /\ UNCHANGED vars

Next ==
  \/ \E self \in (1..N) : Node(self)
  \/ Terminating

Spec ==
  /\ Init
  /\ [][Next]_vars
  /\ \A self \in (1..N) : WF_vars(Node(self))

Termination == <>(\A self \in ProcSet : pc[self] = "Done")
\* END TRANSLATION
====
