% paper.pl FILE STEPS: document 001's technique. After each head's unification the loop check is called; its values are kept by assert and retract, and
% formulas are compared by binding their variables side by side. Otherwise as plain.pl.
:- include(timing).
:- dynamic clock/1, rest_length/1, saved_length/1, saved_formula/1, tau/1.

book_clause((?- Q), (the_query :- inter(Q, L))) :- !, goal_length(Q, L).
book_clause((H :- B), (H :- !, inter(B, L))) :- !, goal_length(B, L).
book_clause(H, (H :- !)).

goal_length((_, R), L) :- !, goal_length(R, L1), L is L1 + 1.
goal_length(_, 1).

set(G) :- functor(G, N, 1), functor(O, N, 1), ( retract(O) -> true ; true ), asserta(G), !.
reset :- set(clock(0)), set(rest_length(0)), set(saved_length(0)), set(saved_formula([])), set(tau(0)).

inter((F, R), Lc) :- !, rest_length(Lo), Ln is Lo + Lc - 1, set(rest_length(Ln)), check(F), call(F), set(rest_length(Lo)), Lr is Lc - 1, inter(R, Lr).
inter(F, 1) :- check(F), call(F).

check(F) :-
    clock(T), tau(Tau), saved_length(Ls), saved_formula(Fs), rest_length(R), Len is R + 1, T1 is T + 1, set(clock(T1)), left_after(T),
    ( T =:= Tau -> ( Tau =:= 0 -> set(tau(1)) ; Tau2 is Tau * 2, set(tau(Tau2)) ), set(saved_length(Len)), set(saved_formula(F))
    ; Len < Ls -> set(saved_length(Len)), set(saved_formula(F))
    ; same(F, Fs) -> throw(ended)
    ; true ).

left_after(T) :- nb_getval(steps, S), ( S > 0, T >= S -> throw(ended) ; true ).

same(X, Y) :- \+ \+ ( numbervars(X, 0, E), numbervars(Y, 0, E), X == Y ).

one_run(Steps) :- nb_setval(steps, Steps), reset, catch(the_query, ended, true), !.

:- initialization(main, main).
