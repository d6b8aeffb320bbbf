% The drill's work for N rows.
:- initialization(main, main).
:- dynamic p/2.

main :-
    current_prolog_flag(argv, [Word]),
    atom_number(Word, N),
    forall((Last is N - 1, between(0, Last, I)), (V is I * 7 mod 11, assertz(p(I, V)))),
    writeln('commit 1'),
    show,
    aggregate_all(sum(V), p(_, V), Sum),
    writeln(Sum),
    findall(K-V, (p(J, V), K is J + N), Up),
    snapshot((low, show)),
    snapshot((low, up(Up), show)),
    snapshot((low, findall(K-V, (p(J, V), K is J + N), Raised), up(Raised), show)).

show :-
    aggregate_all(count, p(_, _), Count),
    writeln(Count).

low :-
    forall((p(K, V), V < 5), retract(p(K, V))).

up(Rows) :-
    forall(member(K-V, Rows), ( p(K, V) -> true ; assertz(p(K, V)) )).
