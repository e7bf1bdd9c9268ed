%% Where Erlang/OTP answers otherwise than the command table: the differences of docs/OTP.md, by their numbers there.
%%
%% Each is noted where it shows. A run that steps aside does there what the table says and asks the node nothing, so
%% that its report tells whether the node differs in anything else.
-module(otp_differences).
-export([start/1, steps_aside/0, note/2, found/0, words/1]).
-export([lose_breakpoints/2, set_breakpoint/2, drop_breakpoints/1, lost_breakpoint/3, calls_module_info/2]).

-define(TABLE, ?MODULE).

-spec start(StepsAside :: boolean()) -> ok.
start(StepsAside) ->
    ?TABLE = ets:new(?TABLE, [named_table, public]),
    ets:insert(?TABLE, [{steps_aside, StepsAside}, {found, 0}]),
    ok.

-spec steps_aside() -> boolean().
steps_aside() ->
    ets:lookup_element(?TABLE, steps_aside, 2).

%% Notes that a difference shows, and where: a line of the report.
-spec note(pos_integer(), iodata()) -> ok.
note(Number, Where) ->
    Count = ets:update_counter(?TABLE, found, 1),
    ets:insert(?TABLE, {{found, Count}, Number, iolist_to_binary(Where)}),
    ok.

%% What was noted, first to last.
-spec found() -> [{pos_integer(), binary()}].
found() ->
    [{Number, Where} || {_, Number, Where} <- lists:sort(ets:match_object(?TABLE, {{found, '_'}, '_', '_'}))].

-spec words(pos_integer()) -> string().
words(1) -> "a module came in over the old code that a delete left";
words(2) -> "the modules that are not purged come in another order";
words(3) -> "another one of the names that repeat is told";
words(4) -> "there is no such limit";
words(5) -> "a module that is not loaded was deleted";
words(6) -> "a process has left the old code by a last call";
words(8) -> "the breakpoint was taken out when its code became old, so this call has no line";
words(9) -> "a refused load had taken the breakpoint out";
words(10) -> "every Erlang module has this function".

%% ---- breakpoints that the node took out, and the table keeps

%% By this difference the instance with this serial has lost its breakpoints of these functions.
-spec lose_breakpoints(pos_integer(), {pos_integer(), [{atom(), arity()}]}) -> true.
lose_breakpoints(Number, {Serial, Names}) ->
    ets:insert(?TABLE, [{{lost, Serial, Name}, Number} || Name <- Names]).

%% The breakpoint of a function is as it was asked. Answers by which difference it had been lost, if it was.
-spec set_breakpoint(pos_integer(), {atom(), arity()}) -> none | pos_integer().
set_breakpoint(Serial, Name) ->
    case ets:take(?TABLE, {lost, Serial, Name}) of
        [{_, Number}] -> Number;
        [] -> none
    end.

%% The instance is gone.
-spec drop_breakpoints(pos_integer()) -> true.
drop_breakpoints(Serial) ->
    ets:match_delete(?TABLE, {{lost, Serial, '_'}, '_'}).

%% By which difference the breakpoint of a function of this instance was lost, if it was.
-spec lost_breakpoint(pos_integer(), atom(), arity()) -> none | pos_integer().
lost_breakpoint(Serial, Name, Arity) ->
    case ets:lookup(?TABLE, {lost, Serial, {Name, Arity}}) of
        [{_, Number}] -> Number;
        [] -> none
    end.

%% ---- functions that no text has

%% Stands before a call of module_info: a script's module has the functions of its text alone.
-spec calls_module_info(module(), arity()) -> ok.
calls_module_info(Module, Arity) ->
    case {erlang:module_loaded(Module), steps_aside()} of
        {true, true} -> erlang:raise(error, undef, [{Module, module_info, Arity, []}]);
        {true, false} -> note(10, ["call of module_info/", integer_to_list(Arity)]);
        {false, _} -> ok
    end.
