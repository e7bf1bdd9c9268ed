%% The text of a run's report, as `beam check` reads it.
-module(otp_report).
-export([text/1]).

-spec text(otp_rounds:outcome()) -> iolist().
text(#{generation := Generation, entries := Entries, processes := Processes, observers := Observers}) ->
    Lines =
        ["beam report 1", ["generations ", number(Generation)]] ++
            Entries ++
            lists:append([process(Number, Process) || {Number, Process} <- numbered(Processes)]) ++
            lists:append([observer(Number, Snapshots) || {Number, Snapshots} <- numbered(Observers)]) ++
            ["end report"],
    [[Line, $\n] || Line <- Lines].

process(Number, {Call, Spans, Ending}) ->
    [["process ", number(Number), " ", otp_script:call_text(Call)] | lists:append([span(Span) || Span <- Spans])] ++
        [["end ", ending(Ending)]].

span({Generation, Turns, Lines}) ->
    [["span ", number(Generation), " ", number(Turns)] | [made(Line) || Line <- Lines]].

made({print, Term}) -> ["print ", otp_script:term_text(Term)];
made({trace, Call}) -> ["trace ", otp_script:call_text(Call)].

ending({undef, Function}) -> ["undef ", otp_script:name_text(Function)];
ending({killed, Serial}) -> ["killed ", number(Serial)];
ending(Ending) -> atom_to_list(Ending).

observer(Number, Snapshots) ->
    [["observer ", number(Number)] | lists:append([snapshot(Snapshot) || Snapshot <- Snapshots])].

snapshot({Generation, Exports}) ->
    [["snapshot ", number(Generation)] | [export(Export) || Export <- Exports]].

export({Function, Serial}) ->
    ["export ", otp_script:name_text(Function), " ", number(Serial)].

number(Number) -> integer_to_list(Number).

numbered(Things) -> lists:zip(lists:seq(0, length(Things) - 1), Things).
