---- MODULE Ring ----
EXTENDS Integers, Sequences
CONSTANT N

(* Nodes in a ring choose the one with the greatest number.

--algorithm Ring {
  variables inbox = [n \in 1..N |-> <<>>], leader = 0;

  macro Send(to, number) { inbox[to] := Append(inbox[to], number) }

  fair process (Node \in 1..N)
    variable token = 0;
  {
    Start:
      Send((self mod N) + 1, self);
    Wait:
      while (leader = 0) {
        either { await leader # 0 }
        or {
          await inbox[self] # <<>>;
          token := Head(inbox[self]);
          inbox[self] := Tail(inbox[self]);
          Pass:
            if (token > self) Send((self % N) + 1, token)
            else if (token = self) leader := self
        }
      }
  }
}
*)
====
