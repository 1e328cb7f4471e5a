% What plain.pl and paper.pl share: reading a book, each clause changed by book_clause/2, and timing one_run/1.
:- set_prolog_flag(occurs_check, true).
:- dynamic reading/0.
:- discontiguous book_clause/2, one_run/1.

user:term_expansion(Clause, Changed) :- reading, Clause \== begin_of_file, Clause \== end_of_file, book_clause(Clause, Changed).

read_book(File) :-
    style_check(-singleton), style_check(-discontiguous),
    assertz(reading), load_files(File, [silent(true)]), retract(reading).

runs(Count, Steps) :- ( between(1, Count, _), \+ \+ one_run(Steps), fail ; true ).

% Twice as many runs until they take half a second.
timed(Count, Steps, Nanoseconds) :-
    statistics(cputime, Start), runs(Count, Steps), statistics(cputime, End), Spent is End - Start,
    ( Spent > 0.5 -> Nanoseconds is round(Spent * 1.0e9 / Count) ; More is Count * 2, timed(More, Steps, Nanoseconds) ).

main :-
    current_prolog_flag(argv, [File, Word]), atom_number(Word, Steps),
    read_book(File),
    ( one_run(Steps) -> timed(1, Steps, Nanoseconds), format("~w~n", [Nanoseconds]) ; format("failed~n"), halt(1) ).
