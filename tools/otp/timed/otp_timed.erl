%% Times single acts of the code server and of persistent terms on a real node, for tools/bench. It reads lines `ACT COUNT`
%% and answers to each how many nanoseconds that many took. Its first argument says how many processes are busy meanwhile.
-module(otp_timed).
-export([start/0]).

-define(KILLED, 64).

start() ->
    [Busy] = init:get_plain_arguments(),
    [spawn(fun busy/0) || _ <- lists:seq(1, list_to_integer(Busy))],
    load(target, "-export([one/0]). one() -> 1."),
    answer().

%% Runs until a key is put that nobody puts.
busy() ->
    case persistent_term:get(stop, 0) of
        0 -> busy();
        _ -> ok
    end.

answer() ->
    case io:get_line("") of
        eof ->
            halt(0);
        Line ->
            [Act, Count] = string:tokens(string:trim(Line), " "),
            io:format("~b~n", [timed(list_to_atom(Act), list_to_integer(Count))]),
            answer()
    end.

%% So many acts, in nanoseconds.
timed(call, Count) ->
    once(fun() -> calls(Count) end) - once(fun() -> moves(Count) end);
timed(pget, Count) ->
    persistent_term:put(limits, {10, [20, 30]}),
    once(fun() -> gets(Count) end) - once(fun() -> moves(Count) end);
timed(put, Count) ->
    persistent_term:put(limits, none),
    sum(Count, fun(Number) -> once(fun() -> persistent_term:put(limits, {10, [20, Number]}) end) end);
timed(put_erase, Count) ->
    persistent_term:erase(limits),
    sum(Count, fun(Number) ->
        once(fun() -> persistent_term:put(limits, {10, [20, Number]}), true = persistent_term:erase(limits) end)
    end);
timed(load, Count) ->
    {Name, Binary} = compiled(fresh, "-export([none/0]). none() -> 0."),
    sum(Count, fun(_) -> forget(Name), once(fun() -> {module, _} = code:load_binary(Name, "bench", Binary) end) end);
timed(soft_purge, Count) ->
    {Name, Binary} = compiled(replaced, "-export([none/0]). none() -> 0."),
    forget(Name),
    {module, _} = code:load_binary(Name, "bench", Binary),
    sum(Count, fun(_) ->
        once(fun() -> {module, _} = code:load_binary(Name, "bench", Binary), true = code:soft_purge(Name) end)
    end);
timed(lingering, Count) ->
    Waiting = in_old_code(2),
    Taken = sum(Count, fun(_) -> once(fun() -> false = code:soft_purge(held) end) end),
    [exit(Pid, kill) || Pid <- Waiting],
    Taken;
timed(kill, Count) ->
    sum(Count, fun(_) -> in_old_code(?KILLED), once(fun() -> true = code:purge(held) end) end);
timed(trace, Count) ->
    sum(Count, fun(_) -> once(fun() -> 1 = traced(true), 1 = traced(false) end) end).

traced(Whether) ->
    erlang:trace_pattern({target, one, 0}, Whether, [local]).

once(Act) ->
    Begin = erlang:monotonic_time(nanosecond),
    Act(),
    erlang:monotonic_time(nanosecond) - Begin.

sum(0, _) -> 0;
sum(Count, Act) -> Act(Count) + sum(Count - 1, Act).

calls(0) -> ok;
calls(Count) -> target:one(), calls(Count - 1).

gets(0) -> ok;
gets(Count) -> persistent_term:get(limits), gets(Count - 1).

moves(0) -> ok;
moves(Count) -> moves(Count - 1).

%% So many processes that wait in code which has become old.
in_old_code(Number) ->
    {Name, Binary} = compiled(held, "-export([wait/1]). wait(From) -> From ! here, receive stop -> ok end."),
    forget(Name),
    {module, _} = code:load_binary(Name, "bench", Binary),
    Self = self(),
    Pids = [spawn(fun() -> held:wait(Self) end) || _ <- lists:seq(1, Number)],
    [receive here -> ok end || _ <- Pids],
    {module, _} = code:load_binary(Name, "bench", Binary),
    Pids.

forget(Name) ->
    code:purge(Name),
    code:delete(Name),
    code:purge(Name).

load(Name, Text) ->
    {Name, Binary} = compiled(Name, Text),
    {module, _} = code:load_binary(Name, "bench", Binary).

%% A module of this text, which is compiled once.
compiled(Name, Text) ->
    case get(Name) of
        undefined ->
            Forms = [form(Each) || Each <- ["-module(" ++ atom_to_list(Name) ++ ")." | split(Text)]],
            {ok, Name, Binary} = compile:forms(Forms),
            put(Name, {Name, Binary}),
            {Name, Binary};
        Known ->
            Known
    end.

split(Text) ->
    [Each ++ "." || Each <- string:split(lists:droplast(Text), ". ", all)].

form(Text) ->
    {ok, Tokens, _} = erl_scan:string(Text),
    {ok, Form} = erl_parse:parse_form(Tokens),
    Form.
