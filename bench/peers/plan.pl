% 100,000 rows of stock, and 20,000 orders: each is taken where the stock covers it with what was taken before.
:- initialization(main, main).
:- dynamic stock/2, orders/2.

main :-
    forall(between(0, 99999, I), (N is I * 7919 mod 40, assertz(stock(I, N)))),
    writeln('commit 1'),
    aggregate_all(count, (between(0, 19999, I), offer(I)), Taken),
    writeln('commit 2'),
    writeln(Taken).

% An order is put in, and taken out where it isn't covered.
offer(I) :-
    Item is I * 37 mod 5000,
    Q is I mod 9 + 1,
    (   orders(Item, Q)
    ->  covered(Item)
    ;   assertz(orders(Item, Q), Order),
        (   covered(Item)
        ->  true
        ;   erase(Order),
            fail
        )
    ).

covered(Item) :-
    aggregate_all(sum(Q), orders(Item, Q), Wanted),
    aggregate_all(sum(N), stock(Item, N), There),
    Wanted =< There.
