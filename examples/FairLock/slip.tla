---- MODULE FairLock ----
EXTENDS Integers

(* A lock. Who waits for it gets it, as `Acquire` is strongly fair; `Idle` is left out, so nobody need ever want it.

--algorithm FairLock
variables locked = FALSE, clients = 3;

fair process Client \in 1..clients
begin
  Idle:-
    while TRUE do
      skip;
      Acquire:+ await ~locked; locked := TRUE;
      Critical: skip;
      Release: locked := FALSE;
    end while;
end process;
end algorithm
*)
====
