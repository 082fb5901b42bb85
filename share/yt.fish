# Completion of yt for fish, made by share/write.
function __yt_needs_command
    not __fish_seen_subcommand_from relation mapping adopt drop insert delete replace load answer undo redo try fold status show ask why questions violations log export page graph dump help quit
end
complete -c yt -n __yt_needs_command -l as -x -d 'who speaks'
complete -c yt -n __yt_needs_command -l json -d 'reply with objects of JSON, one a line'
complete -c yt -n __yt_needs_command -l wait -x -d 'how long to wait while others have the file, 0 to 9999 [10]'
complete -c yt -n __yt_needs_command -l keep-going -d 'go on after a command that fails'
complete -c yt -n __yt_needs_command -l no-files -d 'read and write no other file'
complete -c yt -n __yt_needs_command -s h -l help -d 'print the help, the commands with it'
complete -c yt -n __yt_needs_command -s V -l version -d 'print the version'
complete -c yt -n __yt_needs_command -a relation -d 'declare a table'
complete -c yt -n __yt_needs_command -a mapping -d 'say what has to be there when something else is'
complete -c yt -n __yt_needs_command -a adopt -d 'repair what violates a proposed mapping, and put it in force'
complete -c yt -n __yt_needs_command -a drop -d 'take a mapping out of force, or a proposal away'
complete -c yt -n __yt_needs_command -a insert -d 'add tuples, and repair what that breaks'
complete -c yt -n __yt_needs_command -a delete -d 'take tuples away, and what cannot be there without them'
complete -c yt -n __yt_needs_command -a replace -d 'fill in an unknown everywhere; or change a tuple without losing what hangs on it'
complete -c yt -n __yt_needs_command -a load -d 'insert the rows of a file of comma-separated values'
complete -c yt -n __yt_needs_command -a answer -d 'answer the question of update N'
complete -c yt -n __yt_needs_command -a undo -d 'as if these updates had never been'
complete -c yt -n __yt_needs_command -a redo -d 'as if these updates had never been undone'
complete -c yt -n __yt_needs_command -a try -d 'tell what a command would do, and change nothing'
complete -c yt -n __yt_needs_command -a fold -d 'make what stands the base, so that the file stays short'
complete -c yt -n __yt_needs_command -a status -d 'what is here: counts, mappings, what waits'
complete -c yt -n __yt_needs_command -a show -d 'print tables'
complete -c yt -n __yt_needs_command -a ask -d 'the rows that come whatever the unknowns stand for'
complete -c yt -n __yt_needs_command -a why -d 'why a tuple is there, or what took it away; what drew an unknown'
complete -c yt -n __yt_needs_command -a questions -d 'what waits, and for which answer'
complete -c yt -n __yt_needs_command -a violations -d 'what is missing for the proposed mappings, and which keys clash'
complete -c yt -n __yt_needs_command -a log -d 'what was done, when and by whom; of update N, what it wrote'
complete -c yt -n __yt_needs_command -a export -d 'tables for other programs'
complete -c yt -n __yt_needs_command -a page -d 'all of it as one page of HTML'
complete -c yt -n __yt_needs_command -a graph -d 'the mappings as a graph for dot'
complete -c yt -n __yt_needs_command -a dump -d 'what stands, as a session of youtopia'
complete -c yt -n __yt_needs_command -a help -d 'this, or more of one command'
complete -c yt -n __yt_needs_command -a quit -d 'leave the shell'
complete -c yt -n '__fish_seen_subcommand_from relation' -l still
complete -c yt -n '__fish_seen_subcommand_from mapping' -l still
complete -c yt -n '__fish_seen_subcommand_from adopt' -l steps
complete -c yt -n '__fish_seen_subcommand_from adopt' -l still
complete -c yt -n '__fish_seen_subcommand_from drop' -l still
complete -c yt -n '__fish_seen_subcommand_from insert' -l only
complete -c yt -n '__fish_seen_subcommand_from insert' -l steps
complete -c yt -n '__fish_seen_subcommand_from insert' -l still
complete -c yt -n '__fish_seen_subcommand_from delete' -l only
complete -c yt -n '__fish_seen_subcommand_from delete' -l cascade
complete -c yt -n '__fish_seen_subcommand_from delete' -l steps
complete -c yt -n '__fish_seen_subcommand_from delete' -l still
complete -c yt -n '__fish_seen_subcommand_from replace' -l only
complete -c yt -n '__fish_seen_subcommand_from replace' -l cascade
complete -c yt -n '__fish_seen_subcommand_from replace' -l steps
complete -c yt -n '__fish_seen_subcommand_from replace' -l still
complete -c yt -n '__fish_seen_subcommand_from load' -l create
complete -c yt -n '__fish_seen_subcommand_from load' -l empty -x -a 'new text skip refuse'
complete -c yt -n '__fish_seen_subcommand_from load' -l separator -x -a 'tab'
complete -c yt -n '__fish_seen_subcommand_from load' -l text
complete -c yt -n '__fish_seen_subcommand_from load' -l unknowns
complete -c yt -n '__fish_seen_subcommand_from load' -l steps
complete -c yt -n '__fish_seen_subcommand_from load' -l null
complete -c yt -n '__fish_seen_subcommand_from load' -l columns
complete -c yt -n '__fish_seen_subcommand_from load' -l lines
complete -c yt -n '__fish_seen_subcommand_from load' -l still
complete -c yt -n '__fish_seen_subcommand_from answer' -l at
complete -c yt -n '__fish_seen_subcommand_from answer' -l still
complete -c yt -n '__fish_seen_subcommand_from undo' -l answers
complete -c yt -n '__fish_seen_subcommand_from undo' -l still
complete -c yt -n '__fish_seen_subcommand_from redo' -l still
complete -c yt -n '__fish_seen_subcommand_from fold' -l still
complete -c yt -n '__fish_seen_subcommand_from show' -l limit
complete -c yt -n '__fish_seen_subcommand_from show' -l unknowns
complete -c yt -n '__fish_seen_subcommand_from show' -l from
complete -c yt -n '__fish_seen_subcommand_from show' -l like
complete -c yt -n '__fish_seen_subcommand_from ask' -l unknowns
complete -c yt -n '__fish_seen_subcommand_from ask' -l limit
complete -c yt -n '__fish_seen_subcommand_from why' -l dot
complete -c yt -n '__fish_seen_subcommand_from questions' -l like
complete -c yt -n '__fish_seen_subcommand_from questions' -l limit
complete -c yt -n '__fish_seen_subcommand_from questions' -l mine
complete -c yt -n '__fish_seen_subcommand_from violations' -l limit
complete -c yt -n '__fish_seen_subcommand_from log' -l limit
complete -c yt -n '__fish_seen_subcommand_from log' -l since
complete -c yt -n '__fish_seen_subcommand_from export' -l csv
complete -c yt -n '__fish_seen_subcommand_from export' -l sql
complete -c yt -n '__fish_seen_subcommand_from export' -l json
complete -c yt -n '__fish_seen_subcommand_from export' -l to -r
complete -c yt -n '__fish_seen_subcommand_from export' -l sqlite -r
complete -c yt -n '__fish_seen_subcommand_from page' -l to -r
complete -c yt -n '__fish_seen_subcommand_from graph' -l to -r
complete -c yt -n '__fish_seen_subcommand_from dump' -l to -r
