\\ The prime field (257 elements) by PARI/GP. All sums, negatives, products and inverses are those of its Mod numbers.
\\
\\   table()       prints `prime a negative inverse S P` for each element a; the inverse of 0 is 0 by our convention
\\   rows()        prints `prime rows a HS HP` for each element a
\\   checks(file)  reads cases (a line `m r L`, then m rows of L numbers), prints the r check rows of each, a line a row
\\
\\ S is the sum over all b of (b + 1) * (a + b), and P of (b + 1) * (a * b); the inner operation is the field's, the outer ones
\\ are those of whole numbers. HS folds the sums a + b, and HP the products a * b, in the order of b: from 0, each step multiplies by
\\ 263, adds the element and takes the remainder by 1000003.

element(a) = Mod(a, 257);

table() = {
  for (a = 0, 256,
    my(inverse = if (a == 0, 0, lift(element(a)^-1)));
    my(s = sum(b = 0, 256, (b + 1) * lift(element(a) + element(b))));
    my(p = sum(b = 0, 256, (b + 1) * lift(element(a) * element(b))));
    print("prime ", a, " ", lift(-element(a)), " ", inverse, " ", s, " ", p));
}

rows() = {
  for (a = 0, 256,
    my(s = 0, p = 0);
    for (b = 0, 256,
      s = (s * 263 + lift(element(a) + element(b))) % 1000003;
      p = (p * 263 + lift(element(a) * element(b))) % 1000003);
    print("prime rows ", a, " ", s, " ", p));
}

numbers(line) = apply(s -> eval(s), strsplit(line, " "));

checks(file) = {
  my(lines = readstr(file), at = 1);
  while (at <= #lines,
    my([m, r, l] = numbers(lines[at]));
    my(message = matrix(m, l));
    for (j = 1, m, message[j, ] = apply(element, numbers(lines[at + j])));
    my(cauchy = matrix(r, m, i, j, 1 / (element(m + i - 1) - element(j - 1))));
    my(answer = lift(cauchy * message));
    for (i = 1, r, print(strjoin(apply(s -> Str(s), Vec(answer[i, ])), " ")));
    at += 1 + m);
}
