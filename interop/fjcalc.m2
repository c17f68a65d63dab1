-- Calls of fjcalc from Macaulay2. Each call sends one session to the proved program and gives back its answer as an
-- object of the ring that its arguments live in, or an error with its cause. No mathematics is done here.
--
--     loadPackage("fjcalc", FileName => "interop/fjcalc.m2");
--     R = ZZ/5[x,y]; f = x^2+y^3;
--     fjTestIdeal(4/5, f)            -- ideal(y, x)
--     fjThreshold(f, {0,0}, 2)       -- 4/5
--
-- The program is bin/fjcalc beside this folder, or what the environment names by FJCALC_PROGRAM. It is proved and built
-- on first use, which it reports on standard error. The variables of the ring may have any names: in a session they are
-- x1, x2, .., and answers are read back by number.
newPackage("fjcalc",
    Version => "0.1",
    Date => "December 1, 2026",
    Headline => "answers of the proved program fjcalc, for singularities in characteristic p",
    DebuggingMode => false)

export {"fjJumps", "fjTestIdeal", "fjLeftIdeal", "fjIsJump", "fjThreshold", "fjNu", "fjIsFPure", "fjSplit",
    "fjCompatible", "fjFrobeniusRoot", "fjBasis", "fjSession", "Budget"}

folder = currentFileDirectory

program = () -> (
    named := getenv "FJCALC_PROGRAM";
    if named != "" then named else folder | "../bin/fjcalc")

quoted = text -> "'" | replace("'", "'\\\\''", text) | "'"

-- What a status of the program means where it wrote no answer.
causes = hashTable {
    1 => "the program doesn't know the word run", 4 => "the session could not be read",
    5 => "the answers could not be written", 6 => "out of memory",
    8 => "the program could not be proved and built", 126 => "the program can't be run", 127 => "there is no such program"}

-- The line of a session that has the fault.
faulty = (text, fault) -> (
    place := regex("at ([0-9]+):", fault);
    if place === null then "" else (lines text)#(value substring(place#1#0, place#1#1, fault) - 1))

-- The lines that the program writes for a session; an error says what is wrong with it.
fjSession = method(TypicalValue => List)
fjSession String := text -> (
    name := temporaryFileName();
    (name | ".session") << text << close;
    run concatenate(quoted program(), " run < ", name, ".session > ", name, ".answers; echo $? > ", name, ".status");
    status := value first lines get(name | ".status");
    written := lines get(name | ".answers");
    scan({".session", ".answers", ".status"}, ending -> removeFile(name | ending));
    if status == 2 and #written > 0 then error("fjcalc: ", first written, ", in the line: ", faulty(text, first written));
    if status =!= 0 and status =!= 3 then (
        why := if causes#?status then causes#status else "status " | toString status;
        error("fjcalc: ", program(), ": ", why));
    written)

----------------------------------------------------------------------------------------------------------------------
-- Sessions: rings, polynomials, ideals, points and fractions as text
----------------------------------------------------------------------------------------------------------------------

-- The ring, where sessions have it: polynomials over ZZ/p, with variables that commute.
checkedRing = R -> (
    if not instance(R, PolynomialRing) then error "fjcalc: a polynomial ring over ZZ/p is wanted";
    k := coefficientRing R;
    if not (instance(k, QuotientRing) and ambient k === ZZ) then
        error("fjcalc: the coefficients are in ", toString k, ", and ZZ/p is wanted");
    if not isCommutative R or isSkewCommutative R then error "fjcalc: the variables have to commute";
    R)

ringText = R -> concatenate("ring ", toString char R, " ",
    demark(", ", apply(numgens R, i -> "x" | toString(i + 1))), "\n")

factorText = (i, a) -> concatenate("x", toString(i + 1), if a == 1 then "" else "^" | toString a)

termText = (a, c, p) -> demark("*",
    {toString((lift(c, ZZ)) % p)} | apply(select(#a, i -> a#i > 0), i -> factorText(i, a#i)))

polynomialText = f -> (
    terms := listForm f;
    if #terms == 0 then "0" else demark("+", apply(terms, (a, c) -> termText(a, c, char ring f))))

polynomialLine = (name, f) -> concatenate("poly ", name, " = ", polynomialText f, "\n")

idealLine = (name, J) -> (
    members := flatten entries gens J;
    texts := if #members == 0 then {"0"} else apply(members, polynomialText);
    concatenate("ideal ", name, " = (", demark(", ", texts), ")\n"))

coordinateText = (c, k) -> toString((lift(promote(c, k), ZZ)) % char k)

pointLine = (name, P, R) -> (
    if #P != numgens R then error("fjcalc: a point of this ring has ", toString numgens R, " coordinates");
    concatenate("point ", name, " = (", demark(", ", apply(P, c -> coordinateText(c, coefficientRing R))), ")\n"))

ratioText = t -> (
    if not (instance(t, ZZ) or instance(t, QQ)) then error "fjcalc: a whole number or a fraction is wanted";
    toString t)

sameRing = (R, S) -> if R =!= S then error "fjcalc: the arguments are in different rings"

budgetLine = b -> if b === null then "" else concatenate("budget ", toString b, "\n")

----------------------------------------------------------------------------------------------------------------------
-- Answers: polynomials, ideals and fractions from text
----------------------------------------------------------------------------------------------------------------------

factorOf = (text, R) -> (
    if text#0 != "x" then return promote(value text, R);
    pieces := separate("\\^", substring(1, text));
    R_(value pieces#0 - 1) ^ (if #pieces > 1 then value pieces#1 else 1))

polynomialOf = (text, R) -> sum(separate("\\+", text), term -> product(separate("\\*", term), it -> factorOf(it, R)))

membersOf = (text, R) -> apply(separate(", ", substring(1, #text - 2, text)), it -> polynomialOf(it, R))

idealOf = (text, R) -> (
    members := select(membersOf(text, R), g -> g != 0);
    if #members == 0 then ideal(0_R) else ideal members)

ratioOf = text -> promote(value text, QQ)

-- The lines of the answer to the one question of a session, without its number; an error where it is stopped.
asked = (R, budget, declared, question) -> (
    text := concatenate(ringText R, budgetLine budget, declared, "ask ", question, "\n");
    answer := apply(fjSession text, line -> substring(3, line));
    if #answer == 1 and match("^stopped", first answer) then
        error("fjcalc: ", first answer, ": a basis that this question needs passes the ",
            if first answer == "stopped pairs" then "budget; Budget => N gives a greater one" else "limit of degrees");
    answer)

askedIdeal = (R, budget, declared, question) -> idealOf(first asked(R, budget, declared, question), R)

askedTruth = (R, budget, declared, question) -> (
    word := first asked(R, budget, declared, question);
    if word == "yes" then true else if word == "no" then false
    else if word == "off" then error "fjcalc: off: the point isn't a zero of the ideal"
    else error("fjcalc: the answer isn't understood: ", word))

----------------------------------------------------------------------------------------------------------------------
-- The calls
----------------------------------------------------------------------------------------------------------------------

settings = {Budget => null}

-- The test ideal of f^t.
fjTestIdeal = method(Options => settings, TypicalValue => Ideal)
fjTestIdeal(Number, RingElement) := o -> (t, f) -> (
    R := checkedRing ring f;
    askedIdeal(R, o.Budget, polynomialLine("f", f), "test f " | ratioText t))

-- The test ideal of f^s for s below t and near it.
fjLeftIdeal = method(Options => settings, TypicalValue => Ideal)
fjLeftIdeal(Number, RingElement) := o -> (t, f) -> (
    R := checkedRing ring f;
    askedIdeal(R, o.Budget, polynomialLine("f", f), "left f " | ratioText t))

-- Whether t is an F-jumping number of f.
fjIsJump = method(Options => settings, TypicalValue => Boolean)
fjIsJump(Number, RingElement) := o -> (t, f) -> (
    R := checkedRing ring f;
    askedTruth(R, o.Budget, polynomialLine("f", f), "isjump f " | ratioText t))

-- The F-jumping numbers of f in (0, 1] among the fractions with up to E digits: a hash table with "jumps", a list of
-- pairs (number, test ideal), "gaps", a list of open gaps (s, t), and "isComplete".
fjJumps = method(Options => settings, TypicalValue => HashTable)
fjJumps(RingElement, ZZ) := o -> (f, E) -> (
    R := checkedRing ring f;
    answer := asked(R, o.Budget, polynomialLine("f", f), "jumps f " | toString E);
    found := select(answer, line -> match("^jump ", line));
    open := select(answer, line -> match("^open ", line));
    hashTable {
        "jumps" => apply(found, line -> (
            pieces := separate(" = ", substring(5, line));
            (ratioOf pieces#0, idealOf(pieces#1, R)))),
        "gaps" => apply(open, line -> toSequence apply(separate(", ", substring(6, #line - 7, line)), ratioOf)),
        "isComplete" => last answer == "complete"})

-- The threshold that an answer has: a fraction, or the gap (s, t) inside which it lies.
thresholdOf = line -> (
    if match("^threshold ", line) then ratioOf substring(10, line)
    else if match("^between ", line) then toSequence apply(separate(" and ", substring(8, line)), ratioOf)
    else if line == "off" then error "fjcalc: off: f isn't zero at the point"
    else if line == "notin" then error "fjcalc: notin: f isn't in the ideal"
    else if line == "unit" then error "fjcalc: unit: the ideal is the whole ring"
    else error("fjcalc: the answer isn't understood: ", line))

-- The F-pure threshold of f at a point, a list of coordinates, or the F-threshold at an ideal: a fraction where it has
-- up to E digits, else the gap (s, t) inside which it lies.
fjThreshold = method(Options => settings)
fjThreshold(RingElement, List, ZZ) := o -> (f, P, E) -> (
    R := checkedRing ring f;
    declared := polynomialLine("f", f) | pointLine("P", P, R);
    thresholdOf first asked(R, o.Budget, declared, "threshold f P " | toString E))
fjThreshold(RingElement, Ideal, ZZ) := o -> (f, J, E) -> (
    R := checkedRing ring f;
    sameRing(R, ring J);
    declared := polynomialLine("f", f) | idealLine("J", J);
    thresholdOf first asked(R, o.Budget, declared, "threshold f J " | toString E))

-- The greatest r such that f^r isn't in the Frobenius power of J by p^e.
fjNu = method(Options => settings, TypicalValue => ZZ)
fjNu(ZZ, RingElement, Ideal) := o -> (e, f, J) -> (
    R := checkedRing ring f;
    sameRing(R, ring J);
    line := first asked(R, o.Budget, polynomialLine("f", f) | idealLine("J", J), concatenate("nu ", toString e, " f J"));
    if match("^nu ", line) then value substring(3, line) else thresholdOf line)

-- Whether the quotient by I is F-pure; at a point of it, where one is given.
fjIsFPure = method(Options => settings, TypicalValue => Boolean)
fjIsFPure Ideal := o -> I -> (
    R := checkedRing ring I;
    askedTruth(R, o.Budget, idealLine("J", I), "fpure J"))
fjIsFPure(Ideal, List) := o -> (I, P) -> (
    R := checkedRing ring I;
    askedTruth(R, o.Budget, idealLine("J", I) | pointLine("P", P, R), "fpure J P"))
fjIsFPure QuotientRing := o -> S -> fjIsFPure(ideal S, o)

-- The Frobenius root of I^[p] : I.
fjSplit = method(Options => settings, TypicalValue => Ideal)
fjSplit Ideal := o -> I -> askedIdeal(checkedRing ring I, o.Budget, idealLine("J", I), "split J")

-- Whether J is compatible with u at e.
fjCompatible = method(Options => settings, TypicalValue => Boolean)
fjCompatible(ZZ, RingElement, Ideal) := o -> (e, u, J) -> (
    R := checkedRing ring u;
    sameRing(R, ring J);
    askedTruth(R, o.Budget, polynomialLine("u", u) | idealLine("J", J), concatenate("compatible ", toString e, " u J")))

-- The Frobenius root of J at e.
fjFrobeniusRoot = method(Options => settings, TypicalValue => Ideal)
fjFrobeniusRoot(ZZ, Ideal) := o -> (e, J) ->
    askedIdeal(checkedRing ring J, o.Budget, idealLine("J", J), concatenate("root ", toString e, " J"))

-- The order of a session that a ring has, which Macaulay2 keeps as blocks; an error where it has another one.
orderLine = R -> (
    blocks := select(toList (options R).MonomialOrder, block -> not member(first block, {MonomialSize, Position}));
    ones := toList(numgens R : 1);
    word := if blocks === {GRevLex => ones} then "grevlex"
        else if blocks === {Lex => numgens R} then "lex"
        else if blocks === {Weights => ones, Lex => numgens R} then "grlex"
        else error "fjcalc: the order of the ring is none of GRevLex, GLex and Lex with all degrees 1";
    concatenate("order ", word, "\n"))

-- The reduced Groebner basis of J for the order of its ring, as a matrix with one row, rising by lead.
fjBasis = method(Options => settings, TypicalValue => Matrix)
fjBasis Ideal := o -> J -> (
    R := checkedRing ring J;
    matrix {membersOf(first asked(R, o.Budget, orderLine R | idealLine("J", J), "basis J"), R)})

endPackage "fjcalc"
