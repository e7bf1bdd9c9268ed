%% Runs one script on this node, which should be a fresh one, and writes the report of what Erlang/OTP answered.
%%
%%     erl -noshell -pa BEAMS -s otp_node -extra SCRIPT [aside] [last_calls] [source]
%%
%% The report goes to standard output; to standard error a line for each difference of docs/OTP.md that showed. Nothing
%% of this is proved: what a report is worth, the program's `check` says.
-module(otp_node).
-export([start/0]).

-spec start() -> no_return().
start() ->
    %% What the code server logs of refused commands stands in their replies.
    ok = logger:set_primary_config(level, none),
    [File | Options] = init:get_plain_arguments(),
    Script = script(File),
    try
        tell(Script, Options)
    catch
        error:{not_compiled, Name} ->
            Kept = "Erlang keeps module_info/0, module_info/1 and record_info/2 for itself",
            fail(["the module ", atom_to_list(Name), " does not compile: ", Kept])
    end,
    halt(0).

script(File) ->
    case file:read_file(File) of
        {ok, Text} -> script(File, binary_to_list(Text));
        {error, Reason} -> fail(["cannot read ", File, ": ", file:format_error(Reason)])
    end.

script(File, Text) ->
    try
        otp_script:read(Text)
    catch
        error:_ -> fail([File, " has no script: `./beam run` tells what is wrong with it"])
    end.

-spec fail(iodata()) -> no_return().
fail(Words) ->
    io:format(standard_error, "~s~n", [Words]),
    halt(1).

tell(Script, Options) ->
    case lists:member("source", Options) of
        true -> write(source(Script));
        false -> report(Script, Options)
    end.

report(Script, Options) ->
    otp_differences:start(lists:member("aside", Options)),
    write(otp_report:text(otp_rounds:run(Script, [last_calls || lists:member("last_calls", Options)]))),
    [note(Number, Where) || {Number, Where} <- otp_differences:found()].

note(Number, Where) ->
    io:format(standard_error, "difference ~b: ~s: ~s~n", [Number, Where, otp_differences:words(Number)]).

%% Each module text as the Erlang module that is made of it.
source(#{modules := Modules}) ->
    Numbered = lists:zip(lists:seq(1, length(Modules)), Modules),
    [[otp_code:source(Module, Serial, []), $\n] || {Serial, Module} <- Numbered].

write(Text) ->
    ok = file:write(standard_io, Text).
