---- MODULE Dining ----
EXTENDS Integers
CONSTANT N

(* Philosophers round a table; the last one takes the forks the other way round, so none starves.

--algorithm Dining {
  variable holder = [f \in 0..N - 1 |-> -1];

  define {
    Left(p) == p
    Right(p) == (p + 1) % N
    First(p) == IF p = N - 1 THEN Right(p) ELSE Left(p)
    Second(p) == IF p = N - 1 THEN Left(p) ELSE Right(p)
  }

  fair+ process (Philosopher \in 0..N - 1) {
    Think:- while (TRUE) {
      skip;
      TakeFirst: await holder[First(self)] = -1; holder[First(self)] := self;
      TakeSecond: await holder[Second(self)] = -1; holder[Second(self)] := self;
      Eat: skip;
      PutSecond: holder[Second(self)] := -1;
      PutFirst: holder[First(self)] := -1
    }
  }
}
*)
\* BEGIN TRANSLATION
VARIABLES holder, pc

Left(p) == p

Right(p) == (p + 1) % N

First(p) == IF p = (N - 1) THEN Right(p) ELSE Left(p)

Second(p) == IF p = (N - 1) THEN Left(p) ELSE Right(p)

vars == <<holder, pc>>

ProcSet == 0..(N - 1)

Init ==
  /\ holder = [f \in (0..(N - 1)) |-> -1]
  /\ pc = [self \in ProcSet |-> "Think"]

Think(self) ==
  /\ (pc[self] = "Think")
  /\ IF TRUE
     THEN
       /\ (TRUE)
       /\ pc' = [pc EXCEPT ![self] = "TakeFirst"]
     ELSE
       /\ pc' = [pc EXCEPT ![self] = "Done"]
  /\ UNCHANGED <<holder>>

TakeFirst(self) ==
  /\ (pc[self] = "TakeFirst")
  /\ (holder[First(self)] = (-1))
  /\ holder' = [holder EXCEPT ![First(self)] = self]
  /\ pc' = [pc EXCEPT ![self] = "TakeSecond"]

TakeSecond(self) ==
  /\ (pc[self] = "TakeSecond")
  /\ (holder[Second(self)] = (-1))
  /\ holder' = [holder EXCEPT ![Second(self)] = self]
  /\ pc' = [pc EXCEPT ![self] = "Eat"]

Eat(self) ==
  /\ (pc[self] = "Eat")
  /\ (TRUE)
  /\ pc' = [pc EXCEPT ![self] = "PutSecond"]
  /\ UNCHANGED <<holder>>

PutSecond(self) ==
  /\ (pc[self] = "PutSecond")
  /\ holder' = [holder EXCEPT ![Second(self)] = -1]
  /\ pc' = [pc EXCEPT ![self] = "PutFirst"]

PutFirst(self) ==
  /\ (pc[self] = "PutFirst")
  /\ holder' = [holder EXCEPT ![First(self)] = -1]
  /\ pc' = [pc EXCEPT ![self] = "Think"]

Philosopher(self) ==
  \/ Think(self)
  \/ TakeFirst(self)
  \/ TakeSecond(self)
  \/ Eat(self)
  \/ PutSecond(self)
  \/ PutFirst(self)

Terminating ==
  /\ (\A self \in ProcSet : pc[self] = "Done")
  /\ UNCHANGED vars

Next ==
  \/ \E self \in (0..(N - 1)) : Philosopher(self)
  \/ Terminating

Spec ==
  /\ Init
  /\ [][Next]_vars
  /\ \A self \in (0..(N - 1)) : SF_vars((pc[self] \notin {"Think"}) /\ Philosopher(self))

Termination == <>(\A self \in ProcSet : pc[self] = "Done")
\* END TRANSLATION
====
