-- Compares the calls of fjcalc.m2 with those of TestIdeals and FrobeniusThresholds: run by check.py, which counts the lines.
loadPackage("fjcalc", FileName => "interop/fjcalc.m2")
needsPackage "TestIdeals"
needsPackage "FrobeniusThresholds"

compare = (name, ours, theirs) -> print concatenate(
    if ours == theirs then "agrees: " else "DIFFERS: ", name,
    if ours == theirs then "" else concatenate(": ", toString ours, " against ", toString theirs))

-- The left limit at t, by a Frobenius root of a great power.
leftIdeal = (t, f, e) -> frobeniusRoot(e, ideal f^(ceiling(t * (char ring f)^e) - 1))

-- The F-jumping numbers among the fractions with up to E digits, each with its test ideal.
candidates = (p, E) -> sort unique flatten flatten for b from 1 to E list for c from 0 to E - b list
    for m from 1 to p^c*(p^b - 1) list m/(p^c*(p^b - 1))
jumps = (f, E) -> apply(select(candidates(char ring f, E), t -> isFJumpingExponent(t, f)), t -> (t, testIdeal(t, f)))

refuses = (name, call) -> (
    text := try (call(); "no error") else "an error";
    compare(name, text, "an error"))

R = ZZ/5[x,y]
cusp = x^2+y^3
m = ideal(x, y)
compare("test ideal of the cusp at 4/5", fjTestIdeal(4/5, cusp), testIdeal(4/5, cusp))
compare("test ideal of the cusp at 3/4", fjTestIdeal(3/4, cusp), testIdeal(3/4, cusp))
compare("test ideal of the cusp at 2", fjTestIdeal(2, cusp), testIdeal(2/1, cusp))
compare("left limit of the cusp at 4/5", fjLeftIdeal(4/5, cusp), leftIdeal(4/5, cusp, 4))
compare("4/5 is a jumping number", fjIsJump(4/5, cusp), isFJumpingExponent(4/5, cusp))
compare("5/6 is none", fjIsJump(5/6, cusp), isFJumpingExponent(5/6, cusp))
compare("jumps of the cusp", (fjJumps(cusp, 2))#"jumps", jumps(cusp, 2))
compare("the list is complete", (fjJumps(cusp, 2))#"isComplete", true)
compare("open gap of the cusp", (fjJumps(cusp, 1))#"gaps", {(3/4, 1/1)})
compare("threshold of the cusp", fjThreshold(cusp, {0, 0}, 2), fpt cusp)
compare("threshold of the cusp at m", fjThreshold(cusp, m, 2), fpt cusp)
compare("nu of the cusp", fjNu(3, cusp, m), frobeniusNu(3, cusp, m))
compare("root of an ideal", fjFrobeniusRoot(1, ideal(x^7*y, y^9+x^2)), frobeniusRoot(1, ideal(x^7*y, y^9+x^2)))
compare("compatible", fjCompatible(1, x^4*y^4, ideal x), isSubset(frobeniusRoot(1, ideal(x^4*y^4) * ideal x), ideal x))
compare("not compatible", fjCompatible(1, x^4*y^4, ideal(x+y)), isSubset(frobeniusRoot(1, ideal(x^4*y^4) * ideal(x+y)), ideal(x+y)))

-- Variables with an index, and coefficients that Macaulay2 prints with a sign.
S = ZZ/7[a_1..a_3]
fermat = a_1^3+a_2^3-3*a_3^3
compare("threshold of a Fermat cubic", fjThreshold(fermat, {0, 0, 0}, 1), fpt fermat)
compare("F-purity of its cone", fjIsFPure ideal fermat, isFPure ideal fermat)
compare("test ideal of its square", fjTestIdeal(3/2, fermat), testIdeal(3/2, fermat))
compare("root of its fourth power", fjFrobeniusRoot(1, ideal fermat^4), frobeniusRoot(1, ideal fermat^4))
compare("nu at another ideal", fjNu(2, fermat, ideal(a_1^2, a_2, a_3)), frobeniusNu(2, fermat, ideal(a_1^2, a_2, a_3)))

-- Names that no session takes.
T = ZZ/2[alpha', betaLong, c]
axes = ideal(alpha'*betaLong, alpha'*c, betaLong*c)
thick = ideal(alpha'^2)
compare("F-purity of three axes", fjIsFPure axes, isFPure axes)
compare("F-purity by the quotient ring", fjIsFPure(T/axes), isFPure axes)
compare("F-purity of a double plane", fjIsFPure thick, isFPure thick)
compare("splitting ideal of three axes", fjSplit axes, frobeniusRoot(1, frobenius(1, axes) : axes))
compare("splitting ideal of a double plane", fjSplit thick, frobeniusRoot(1, frobenius(1, thick) : thick))
whitney = alpha'^2+betaLong^2*c
compare("jumps of the Whitney umbrella", (fjJumps(whitney, 2))#"jumps", jumps(whitney, 2))
compare("threshold away from the origin", fjThreshold(whitney, {1, 1, 1}, 1), 1/1)
compare("F-purity at a point", fjIsFPure(ideal whitney, {0, 0, 1}), isFPure(ideal whitney, AtOrigin => false))

-- The other orders, and the zero and the unit ideal.
lexical = ZZ/11[x,y,z, MonomialOrder => Lex]
curve = ideal(y - x^2, z - x^3)
compare("basis by lex", ideal fjBasis curve, curve)
compare("basis by lex, its members", sort flatten entries fjBasis curve, sort flatten entries gens gb curve)
graded = ZZ/3[x,y,z, MonomialOrder => GLex]
quadrics = ideal(x*y - z^2, x^2 - y*z)
compare("basis by grlex, its members", sort flatten entries fjBasis quadrics, sort flatten entries gens gb quadrics)
compare("basis of the zero ideal", ideal fjBasis ideal(0_graded), ideal(0_graded))
compare("basis of the unit ideal", ideal fjBasis ideal(1_graded), ideal(1_graded))

refuses("a polynomial that isn't zero at the point", () -> fjThreshold(cusp, {1, 1}, 1))
refuses("an ideal of another ring", () -> fjNu(1, cusp, axes))
refuses("a point with too few coordinates", () -> fjThreshold(cusp, {0}, 1))
refuses("rational coefficients", () -> (U := QQ[x, y]; fjIsFPure ideal(U_0)))
refuses("a number that the program doesn't take", () -> fjTestIdeal(9, cusp))
refuses("a budget that is too small", () -> fjBasis(ideal(x^2+y, x*y+1), Budget => 1))
