\\ What PARI says of one sheet: the verdict on each posting, and whether the shown plan and moves are right.
\\ m is the modulus, 0 or 7, and n the number of unknowns.

\\ The lattice that the columns generate, together with all multiples of m, by its Hermite normal form.
lattice(M, m) = if(m, mathnfmodid(M, m), mathnf(M));
rank(M, m) = matrank(if(m, M * Mod(1, m), M));
kernel(A, m) = if(m, lift(matker(A * Mod(1, m))), matkerint(A));

\\ T holds the equations taken, a row each, its last column the right sides; its first row says 0 = 0. E is T with
\\ the posted row. E has a plan exactly when its right sides lie in the lattice of its coefficients. T always has one,
\\ so all its plans meet the row exactly when the row is a combination of T's.
\\ Printed: the verdicts; how many were contradicted by divisibility alone; and of what was shown, whether the number of
\\ moves, the lattice of the moves and the fixed plan are right.
sheet(m, n, rows, fixed, moves) =
{
  my(T = matrix(1, n + 1), by_divisor = 0, verdicts, A, M, left);
  verdicts = vector(#rows, i,
    my(E = matconcat([T; rows[i]]));
    if(lattice(E[, 1..n], m) != lattice(E, m),
      by_divisor += !m && rank(E[, 1..n], m) == rank(E, m);
      16
    ,
      if(rank(E, m) == rank(T, m), 1, T = E; 0)));
  A = T[, 1..n];
  M = matrix(n, #moves, i, j, moves[j][i]);
  left = A * fixed~ - T[, n + 1];
  if(m, left %= m);
  print([verdicts, by_divisor,
    [#moves == n - rank(A, m), lattice(M, m) == lattice(kernel(A, m), m), left == vectorv(#left)]]);
}
