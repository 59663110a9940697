---- MODULE Euclid ----
EXTENDS Integers

(* The greatest common divisor of two numbers, by differences.

--algorithm Euclid {
  variables first \in 1..20, second \in 1..20, u = first, v = second;
  {
    Loop:
      while (u # 0) {
        if (u < v) { u := v || v := u };
        Subtract: u := u - v
      };
    Check:
      assert first % v = 0 /\ second % v = 0
  }
}
*)
====
