# Completion of `rvc` for fish.

set -l verbs run check certify replay fmt gen help

# The ports of the top that was named, with the files that stand behind `PORT=`.
function __rvc_ports
    set -l words (commandline -opc)
    set -l current (commandline -ct)
    if string match -q '*=*' -- $current
        set -l port (string split -m 1 = -- $current)
        for file in (__fish_complete_path $port[2])
            echo "$port[1]=$file"
        end
    else if test (count $words) -ge 3
        set -l folder (dirname (realpath (command -v rvc)))
        for port in ($folder/tools/port_names $words[3] 2>/dev/null)
            echo "$port="
        end
    end
end

complete -c rvc -f
complete -c rvc -n "not __fish_seen_subcommand_from $verbs" -a run -d 'Run a network'
complete -c rvc -n "not __fish_seen_subcommand_from $verbs" -a check -d 'Say whether the sources conform'
complete -c rvc -n "not __fish_seen_subcommand_from $verbs" -a certify -d 'Say whether each actor is certified'
complete -c rvc -n "not __fish_seen_subcommand_from $verbs" -a replay -d 'Say whether a trace is a run of the network'
complete -c rvc -n "not __fish_seen_subcommand_from $verbs" -a fmt -d 'Print the canonical text of a file'
complete -c rvc -n "not __fish_seen_subcommand_from $verbs" -a gen -d 'Run a generated network'
complete -c rvc -n "not __fish_seen_subcommand_from $verbs" -a help -d 'Say more of a verb'
complete -c rvc -n "__fish_seen_subcommand_from help" -a 'run check certify replay fmt gen'
complete -c rvc -n "__fish_seen_subcommand_from run check certify replay; and test (count (commandline -opc)) -eq 2" \
    -k -a '(__fish_complete_suffix .xdf; __fish_complete_suffix .cal)'
complete -c rvc -n "__fish_seen_subcommand_from fmt; and test (count (commandline -opc)) -eq 2" \
    -a '(__fish_complete_suffix .cal)'
complete -c rvc -n "__fish_seen_subcommand_from run replay; and test (count (commandline -opc)) -gt 2" -a '(__rvc_ports)'
complete -c rvc -n "__fish_seen_subcommand_from run gen replay" -l trace -r -F -d 'The file of the trace'
complete -c rvc -n "__fish_seen_subcommand_from run gen" -l workers -x -d 'Workers, 1 to 64'
complete -c rvc -n "__fish_seen_subcommand_from run gen" -l round -x -a 'all turn seed:' -d 'Which instances a round picks'
complete -c rvc -n "__fish_seen_subcommand_from run gen" -l burst -x -d 'Firings of an instance in a round'
complete -c rvc -n "__fish_seen_subcommand_from run gen" -l budget -x -d 'Firings of the run'
complete -c rvc -n "__fish_seen_subcommand_from run gen replay" -l grow -x -d 'Capacity up to which links grow'
complete -c rvc -s h -l help -d 'What can be asked'
complete -c rvc -s V -l version -d 'The version'
