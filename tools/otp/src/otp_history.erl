%% What a node does not tell, and the rules of this project do: the generations, the serials of code and of persistent
%% terms, and their releases. All of it is INFERRED here from what the node did, by the command table of
%% docs/FORMATS.md.
-module(otp_history).
-export([new/0, generation/1, entries/1, next_serial/1, current/2, old/2, live_instances/1, keys/1, live_areas/1]).
-export([enter/4, release/2, has_retired/1]).

-record(history, {
    generation = 0 :: non_neg_integer(),
    %% the last serial that was given
    serial = 0 :: non_neg_integer(),
    current = #{} :: #{atom() => pos_integer()},
    old = #{} :: #{atom() => pos_integer()},
    %% the keys that hold a term, with the serial of a tuple or list
    keys = #{} :: #{atom() => pos_integer() | none},
    %% what was dropped since the last round, the newest first, and what was dropped before it
    retired = [] :: [pos_integer()],
    waiting = [] :: [pos_integer()],
    %% the journal, the newest entry first
    entries = [] :: [iolist()]
}).
-opaque history() :: #history{}.
%% what a command changed on the node: all that it says is what the node did
-type change() ::
    none
    | {loaded, [atom()]}
    | {deleted | dropped | doomed, atom()}
    | {put, atom(), term()}
    | {erased, atom()}
    | traced.
-export_type([history/0, change/0]).

-spec new() -> history().
new() -> #history{}.

-spec generation(history()) -> non_neg_integer().
generation(#history{generation = Generation}) -> Generation.

%% The lines of the journal, first to last.
-spec entries(history()) -> [iolist()].
entries(#history{entries = Entries}) -> lists:reverse(Entries).

%% The serial that is given next.
-spec next_serial(history()) -> pos_integer().
next_serial(#history{serial = Serial}) -> Serial + 1.

%% The serials of the current and of the old code of a module.
-spec current(atom(), history()) -> pos_integer() | none.
current(Module, #history{current = Current}) -> maps:get(Module, Current, none).

-spec old(atom(), history()) -> pos_integer() | none.
old(Module, #history{old = Old}) -> maps:get(Module, Old, none).

-spec live_instances(history()) -> non_neg_integer().
live_instances(#history{current = Current, old = Old}) -> map_size(Current) + map_size(Old).

%% The keys that hold a term, and how many of these are tuples or lists.
-spec keys(history()) -> [atom()].
keys(#history{keys = Keys}) -> maps:keys(Keys).

-spec live_areas(history()) -> non_neg_integer().
live_areas(#history{keys = Keys}) -> length([Serial || Serial <- maps:values(Keys), Serial =/= none]).

%% Enters a command in the journal: who made it, its text with the reply, and what it changed. A change publishes a
%% generation.
-spec enter(iodata(), iodata(), change(), history()) -> history().
enter(Who, Text, none, History) ->
    line(Who, Text, "-", History);
enter(Who, Text, Change, #history{generation = Before} = History) ->
    Generation = Before + 1,
    line(Who, Text, ["@", integer_to_list(Generation)], changed(Change, History#history{generation = Generation})).

line(Who, Text, Published, #history{entries = Entries} = History) ->
    History#history{entries = [["entry ", Who, " ", Text, " ", Published] | Entries]}.

changed({loaded, Modules}, History) ->
    lists:foldl(fun load/2, History, Modules);
changed({deleted, Module}, History) ->
    make_old(Module, History);
changed({dropped, Module}, #history{old = Old} = History) ->
    {Serial, Rest} = maps:take(Module, Old),
    retire(Serial, History#history{old = Rest});
changed({put, Key, Term}, #history{keys = Keys} = History) ->
    {Serial, Given} = term_serial(Term, retire(maps:get(Key, Keys, none), History)),
    Given#history{keys = Keys#{Key => Serial}};
changed({erased, Key}, #history{keys = Keys} = History) ->
    {Serial, Rest} = maps:take(Key, Keys),
    retire(Serial, History#history{keys = Rest});
changed({doomed, _}, History) ->
    History;
changed(traced, History) ->
    History.

load(Module, History) ->
    #history{serial = Serial, current = Current} = Made = make_old(Module, History),
    Made#history{serial = Serial + 1, current = Current#{Module => Serial + 1}}.

make_old(Module, #history{current = Current, old = Old} = History) ->
    case maps:take(Module, Current) of
        {Serial, Rest} -> History#history{current = Rest, old = Old#{Module => Serial}};
        error -> History
    end.

%% A tuple or list that is put has an area, and so a serial; an integer or atom has none.
term_serial(Term, #history{serial = Serial} = History) when is_tuple(Term); is_list(Term) ->
    {Serial + 1, History#history{serial = Serial + 1}};
term_serial(_, History) ->
    {none, History}.

retire(none, History) -> History;
retire(Serial, #history{retired = Retired} = History) -> History#history{retired = [Serial | Retired]}.

%% Releases what was dropped before the last round: each process that goes on has had a turn since, in which it has
%% copied what it had of it, and nobody stands in code that was dropped. Where no process goes on, all is released.
-spec release(IsIdle :: boolean(), history()) -> history().
release(false, #history{retired = Retired, waiting = Waiting} = History) ->
    released(Waiting, History#history{retired = [], waiting = lists:reverse(Retired)});
release(true, #history{retired = Retired, waiting = Waiting} = History) ->
    released(Waiting ++ lists:reverse(Retired), History#history{retired = [], waiting = []}).

released(Serials, History) ->
    Release = fun(Serial, Made) -> line("rt", ["release ", integer_to_list(Serial), " = ok"], "-", Made) end,
    lists:foldl(Release, History, Serials).

%% Whether something that was dropped is not released yet.
-spec has_retired(history()) -> boolean().
has_retired(#history{retired = Retired, waiting = Waiting}) ->
    Retired =/= [] orelse Waiting =/= [].
