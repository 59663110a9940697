---- MODULE FairLock ----
EXTENDS Integers

(* A lock. Who waits for it gets it, as `Acquire` is strongly fair; `Idle` is left out, so nobody need ever want it.

--algorithm FairLock
variable locked = FALSE;

fair process Client \in 1..3
begin
  Idle:-
    while TRUE do
      skip;
      Acquire:+ await ~locked; locked := TRUE;
      Critical: skip;
      Release: locked := FALSE;
    end while;
end process;
end algorithm
*)
====
