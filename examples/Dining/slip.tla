---- MODULE Dining ----
EXTENDS Integers
CONSTANT N

(* Philosophers round a table; the last one takes the forks the other way round, so none starves.

--algorithm Dining {
  variable holder = [f \in 0..N - 1 |-> -1];

  define {
    Left(p) == p
    Right(p) == (p + 1) % N
    First(p) == IF p = N - 1 THEN Right(p) ELSE Left(p)
    Second(p) == IF p = N - 1 THEN Left(p) ELSE Right(p)
  }

  fair+ process (Philosopher \in 0..N - 1) {
    Think:- while (TRUE) {
      skip;
      TakeFirst: await holder[First[self]] = -1; holder[First(self)] := self;
      TakeSecond: await holder[Second(self)] = -1; holder[Second(self)] := self;
      Eat: skip;
      PutSecond: holder[Second(self)] := -1;
      PutFirst: holder[First(self)] := -1
    }
  }
}
*)
====
