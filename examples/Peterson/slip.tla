---- MODULE Peterson ----
EXTENDS Integers

(* Mutual exclusion of two processes, without any lock.

--algorithm Peterson
variables flag = [i \in {0, 1} |-> FALSE], turn = 0;

process Contender \in {0, 1}
begin
    while TRUE do
      skip;
      Raise: flag[self] := TRUE;
      Yield: turn := 1 - self;
      Wait: await ~flag[1 - self] \/ turn = self;
      Critical: skip;
      Lower: flag[self] := FALSE;
    end while;
end process;
end algorithm
*)
====
