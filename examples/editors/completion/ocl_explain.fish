# completion of ocl_explain for fish

# Whether the command is the first word given, and as many arguments as the second says stand before the cursor.
function __ocl_explain_at
    set -l words (commandline -opc)
    test (count $words) -gt 1; and test $words[2] = $argv[1]; or return 1
    set -e words[1..2]
    set -l place 0
    set -l is_value 0
    for word in $words
        if test $is_value = 1
            set is_value 0
        else if contains -- $word --also --budget --csv --format --lines --max --objects --rule --seed --tries --verdict
            set is_value 1
        else if not string match -qr -- '^-.' $word
            set place (math $place + 1)
        end
    end
    test $place = $argv[2]
end

complete -c ocl_explain -f
complete -c ocl_explain -l help -d 'Prints help'
complete -c ocl_explain -n __fish_use_subcommand -l version -d 'Prints the version'

complete -c ocl_explain -n __fish_use_subcommand -a judge -d 'Judges a delivery by rules, and prints the report'
complete -c ocl_explain -n '__fish_seen_subcommand_from judge' -l text -d 'RULES is a rule text; without this option it is a code file'
complete -c ocl_explain -n '__fish_seen_subcommand_from judge' -l budget -x -d 'The most that a rule may be charged for an object; 2^63-1 where not given'
complete -c ocl_explain -n '__fish_seen_subcommand_from judge' -l format -x -a 'text json github junit sarif html' -d 'Prints each finding with its place, class and message'
complete -c ocl_explain -n '__fish_seen_subcommand_from judge' -l json -d 'The same as --format json: an object in each line'
complete -c ocl_explain -n '__fish_seen_subcommand_from judge' -l rule -x -d 'With --text: judges by the rules of these names, which commas separate'
complete -c ocl_explain -n '__fish_seen_subcommand_from judge' -l why -d 'Prints below each finding the parts of the rule with their values'
complete -c ocl_explain -n '__fish_seen_subcommand_from judge' -l max -x -d 'With --why: explains at most N findings of each rule (all)'
complete -c ocl_explain -n '__fish_seen_subcommand_from judge' -l lines -x -d 'With --why: prints at most N lines of each explanation (20)'
complete -c ocl_explain -n '__fish_seen_subcommand_from judge' -l also -r -F -d 'With --text: one more rule text, judged with the others as one; may be repeated'
complete -c ocl_explain -n '__fish_seen_subcommand_from judge' -l search -d 'With --text: warns of each rule that no delivery was found to break'
complete -c ocl_explain -n '__ocl_explain_at judge 0' -k -a '(__fish_complete_suffix .json)'
complete -c ocl_explain -n '__ocl_explain_at judge 1' -k -a '(__fish_complete_suffix .json)'
complete -c ocl_explain -n '__ocl_explain_at judge 2' -F

complete -c ocl_explain -n __fish_use_subcommand -a compile -d 'Compiles a rule text to a code file'
complete -c ocl_explain -n '__fish_seen_subcommand_from compile' -l also -r -F -d 'One more rule text, compiled with the others as one; may be repeated'
complete -c ocl_explain -n '__fish_seen_subcommand_from compile' -l search -d 'Warns of each rule that no delivery was found to break'
complete -c ocl_explain -n '__ocl_explain_at compile 0' -k -a '(__fish_complete_suffix .json)'
complete -c ocl_explain -n '__ocl_explain_at compile 1' -F
complete -c ocl_explain -n '__ocl_explain_at compile 2' -F

complete -c ocl_explain -n __fish_use_subcommand -a verify -d 'Verifies a code file for a class model'
complete -c ocl_explain -n '__ocl_explain_at verify 0' -k -a '(__fish_complete_suffix .json)'
complete -c ocl_explain -n '__ocl_explain_at verify 1' -F

complete -c ocl_explain -n __fish_use_subcommand -a bound -d 'Says what each rule of a code file is charged at most for an object of a delivery'
complete -c ocl_explain -n '__ocl_explain_at bound 0' -k -a '(__fish_complete_suffix .json)'
complete -c ocl_explain -n '__ocl_explain_at bound 1' -k -a '(__fish_complete_suffix .json)'
complete -c ocl_explain -n '__ocl_explain_at bound 2' -F

complete -c ocl_explain -n __fish_use_subcommand -a desk -d 'Makes many reports on a delivery side by side, as a script of calls says'
complete -c ocl_explain -n '__ocl_explain_at desk 0' -k -a '(__fish_complete_suffix .json)'
complete -c ocl_explain -n '__ocl_explain_at desk 1' -k -a '(__fish_complete_suffix .json)'
complete -c ocl_explain -n '__ocl_explain_at desk 2' -F
complete -c ocl_explain -n '__ocl_explain_at desk 3' -F

complete -c ocl_explain -n __fish_use_subcommand -a eval -d 'Evaluates an expression in a delivery'
complete -c ocl_explain -n '__ocl_explain_at eval 0' -k -a '(__fish_complete_suffix .json)'
complete -c ocl_explain -n '__ocl_explain_at eval 1' -k -a '(__fish_complete_suffix .json)'

complete -c ocl_explain -n __fish_use_subcommand -a examples -d 'Searches for small deliveries that show what each rule means'
complete -c ocl_explain -n '__fish_seen_subcommand_from examples' -l rule -x -d 'Only for the rules of these names, which commas separate'
complete -c ocl_explain -n '__fish_seen_subcommand_from examples' -l verdict -x -a 'holds fails undecided' -d 'Only deliveries that show this verdict'
complete -c ocl_explain -n '__fish_seen_subcommand_from examples' -l others-hold -d 'Only deliveries in which all other rules hold'
complete -c ocl_explain -n '__fish_seen_subcommand_from examples' -l seed -x -d 'Another seed finds other deliveries (1)'
complete -c ocl_explain -n '__fish_seen_subcommand_from examples' -l tries -x -d 'Tries at most N deliveries for a verdict (6000)'
complete -c ocl_explain -n '__fish_seen_subcommand_from examples' -l objects -x -d 'Of at most N objects, up to 100 (6)'
complete -c ocl_explain -n '__ocl_explain_at examples 0' -k -a '(__fish_complete_suffix .json)'
complete -c ocl_explain -n '__ocl_explain_at examples 1' -F
complete -c ocl_explain -n '__ocl_explain_at examples 2' -F

complete -c ocl_explain -n __fish_use_subcommand -a list -d 'Lists a code file in words'
complete -c ocl_explain -n '__ocl_explain_at list 0' -F
complete -c ocl_explain -n '__ocl_explain_at list 1' -k -a '(__fish_complete_suffix .json)'

complete -c ocl_explain -n __fish_use_subcommand -a schema -d 'Prints the JSON Schema of deliveries'
complete -c ocl_explain -n '__ocl_explain_at schema 0' -k -a '(__fish_complete_suffix .json)'

complete -c ocl_explain -n __fish_use_subcommand -a show -d 'Shows the rules of a code file as OCL'
complete -c ocl_explain -n '__ocl_explain_at show 0' -F
complete -c ocl_explain -n '__ocl_explain_at show 1' -k -a '(__fish_complete_suffix .json)'

complete -c ocl_explain -n __fish_use_subcommand -a summary -d 'Sums up a folder of reports'
complete -c ocl_explain -n '__fish_seen_subcommand_from summary' -l csv -x -a 'deliveries rules' -d 'Prints a table for spreadsheets, in place of words'
complete -c ocl_explain -n '__ocl_explain_at summary 0' -F

complete -c ocl_explain -n __fish_use_subcommand -a test -d 'Tests rules by the deliveries of a folder and their reports'
complete -c ocl_explain -n '__fish_seen_subcommand_from test' -l accept -d 'Writes each report that isn\'t as wanted'
complete -c ocl_explain -n '__ocl_explain_at test 0' -F
complete -c ocl_explain -n '__ocl_explain_at test 1' -k -a '(__fish_complete_suffix .json)'
complete -c ocl_explain -n '__ocl_explain_at test 2' -F

complete -c ocl_explain -n __fish_use_subcommand -a why -d 'Says why a rule has its verdict for an object'
complete -c ocl_explain -n '__fish_seen_subcommand_from why' -l lines -x -d 'Prints at most N lines of an explanation (400, and 20 without ID)'
complete -c ocl_explain -n '__fish_seen_subcommand_from why' -l max -x -d 'Without ID: explains at most N objects (20)'
complete -c ocl_explain -n '__ocl_explain_at why 0' -k -a '(__fish_complete_suffix .json)'
complete -c ocl_explain -n '__ocl_explain_at why 1' -k -a '(__fish_complete_suffix .json)'
complete -c ocl_explain -n '__ocl_explain_at why 2' -F
