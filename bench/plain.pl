% plain.pl FILE STEPS: a book as compiled clauses, each with a cut, since the path never goes back; unification with the occur check. STEPS is where
% a path without end is left, and 0 for one that ends. Prints the nanoseconds that one run takes.
:- include(timing).

book_clause((?- Q), (the_query :- Q)) :- !.
book_clause((H :- B), (H :- !, B)) :- !.
book_clause(H, (H :- !)).

one_run(0) :- !, the_query, !.
one_run(Steps) :- Limit is Steps + 1, call_with_inference_limit(the_query, Limit, _), !.

:- initialization(main, main).
