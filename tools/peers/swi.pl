% SWI-Prolog's tabling; workload.py says how a driver is called (swipl swi.pl -- MODE RUNS FILE).
%
% all: every category asked at every start, so every span of every category, without depths.
% depth: all, with the least height of each span by tabling with a mode (min).
% top: the start at position 0, and what that asks for.
:- initialization(main, main).
:- use_module(library(readutil)).
:- use_module(library(aggregate)).
:- dynamic token/3, item/2.

main :-
    current_prolog_flag(argv, [Mode|Rest]),
    (   Mode == version
    ->  current_prolog_flag(version, V), Major is V // 10000, Minor is V // 100 mod 100, Patch is V mod 100,
        format("SWI-Prolog ~w.~w.~w~n", [Major, Minor, Patch])
    ;   Rest = [Word, File], atom_number(Word, Runs),
        read_items(File), define(Mode),
        catch(answer(Mode, Runs), error(Fault, _), format("error ~w~n", [Fault]))
    ).

% item(Name, Words) for each line of the file.
read_items(File) :-
    read_file_to_string(File, Text, [encoding(utf8)]),
    split_string(Text, "\n", "", Lines),
    forall(( member(Line, Lines), split_string(Line, " ", " ", [Name|Words]), Name \== "" ),
           ( atom_string(Item, Name), exclude(==(""), Words, Kept), assertz(item(Item, Kept)) )).

number_item(Item, Number) :- item(Item, [Word]), number_string(Number, Word).

category(Number) :- number_item(categories, N), Last is N - 1, between(0, Last, Number).

% c3(I, J) says that category 3 derives I..J; with depth it is c3(I, J, Height).
predicate(Number, Name) :- atom_concat(c, Number, Name).

goal(depth, Number, I, J, Height, Goal) :- !, predicate(Number, Name), Goal =.. [Name, I, J, Height].
goal(_, Number, I, J, _, Goal) :- predicate(Number, Name), Goal =.. [Name, I, J].

define(Mode) :-
    forall(category(K), table_category(Mode, K)),
    forall(item(rule, [Left|Symbols]),
           ( number_string(A, Left), body(Symbols, Mode, I, J, 0, H, Body),
             goal(Mode, A, I, J, Up, Head),
             ( Mode == depth -> Clause = (Head :- Body, Up is H + 1) ; Clause = (Head :- Body) ),
             assertz(user:Clause) )),
    forall(( category(K), number_string(K, S), \+ item(rule, [S|_]) ),
           ( goal(Mode, K, _, _, _, Head), assertz(user:(Head :- fail)) )).

table_category(depth, K) :- !, predicate(K, Name), Moded =.. [Name, _, _, min], table(user:Moded).
table_category(_, K) :- predicate(K, Name), table(user:Name/2).

body([], _, I, J, H, H, I = J).
body([Symbol|Rest], Mode, I, J, H0, H, (Goal, More)) :-
    (   string_concat("n", Digits, Symbol)
    ->  number_string(K, Digits), goal(Mode, K, I, M, D, Called),
        ( Mode == depth -> Goal = (Called, H1 is max(H0, D)) ; Goal = Called, H1 = H0 )
    ;   number_string(Class, Symbol), Goal = token(I, Class, M), H1 = H0
    ),
    body(Rest, Mode, M, J, H1, H, More).

answer(Mode, Runs) :-
    findall(Tokens, ( item(line, Words), findall(T, ( member(W, Words), number_string(T, W) ), Tokens) ), Lines),
    forall(( between(1, Runs, _), nth0(Number, Lines, Tokens) ), line(Mode, Number, Tokens)).

line(Mode, Number, Tokens) :-
    retractall(token(_, _, _)), length(Tokens, N),
    forall(nth0(I, Tokens, T), ( J is I + 1, assertz(token(I, T, J)) )),
    abolish_all_tables,
    statistics(cputime, Before), ask(Mode, N), statistics(cputime, After),
    Time is (After - Before) * 1000000,
    number_item(start, Start), goal(Mode, Start, 0, N, _, Whole),
    ( call(user:Whole) -> Verdict = yes ; Verdict = no ),
    counted(Mode, N, Facts, Depths),
    format("~w ~w ~3f ~w ~w~n", [Number, Verdict, Time, Facts, Depths]), flush_output.

ask(top, _) :- !, number_item(start, Start), goal(top, Start, 0, _, _, Goal), forall(call(user:Goal), true).
ask(Mode, N) :- forall(( category(K), between(0, N, I) ), ( goal(Mode, K, I, _, _, Goal), forall(call(user:Goal), true) )).

fact(Mode, N, Height) :- category(K), between(0, N, I), goal(Mode, K, I, _, Height, Goal), call(user:Goal).

counted(top, _, -, -) :- !.
counted(all, N, Facts, -) :- !, aggregate_all(count, fact(all, N, _), Facts).
counted(depth, N, Facts, Depths) :- aggregate_all(r(count, sum(H)), fact(depth, N, H), r(Facts, Depths)).
