# The words of ntuple for fish. Take it up by a copy in ~/.config/fish/completions.

# Whether a word of a command is awaited that is the name of a file: all words but the three numbers of gen.
function __ntuple_awaits_name
    set -l words (commandline -opc)
    test (count $words) -ge 2; or return 1
    test $words[2] != gen -o (count $words) -ge 5
end

function __ntuple_is
    set -l words (commandline -opc)
    test (count $words) -ge 2; and contains -- $words[2] $argv
end

complete -c ntuple -f
complete -c ntuple -n __fish_is_first_arg -a write -d 'Write the events of one or more texts'
complete -c ntuple -n __fish_is_first_arg -a seq -d 'Write the events of a script, which adds fields between them'
complete -c ntuple -n __fish_is_first_arg -a skim -d 'Write chosen fields of chosen entries of a file'
complete -c ntuple -n __fish_is_first_arg -a merge -d 'Merge files of the same schema'
complete -c ntuple -n __fish_is_first_arg -a gen -d 'Write drawn events'
complete -c ntuple -n __fish_is_first_arg -a entries -d 'Print the entries of a file'
complete -c ntuple -n __fish_is_first_arg -a schema -d 'Print the fields of a file'
complete -c ntuple -n __fish_is_first_arg -a scan -d 'Print the totals of the numbers of a file'
complete -c ntuple -n __ntuple_awaits_name -F

complete -c ntuple -n '__ntuple_is write seq skim' -l cluster -x -d 'The entries of a cluster, 1 to 1000000'
complete -c ntuple -n '__ntuple_is write seq skim' -l page -x -d 'The most elements of a page, 1 to 1048576'
complete -c ntuple -n '__ntuple_is write seq skim merge' -l group -x -d 'The most clusters that share a page list, 1 to 10000'
complete -c ntuple -n '__ntuple_is write seq skim' -l plain -d 'Columns lie element by element'
complete -c ntuple -n '__ntuple_is write seq skim merge' -l max-range -x -d 'The most bytes of a cluster or an envelope, 1024 to 1073741824'
complete -c ntuple -n '__ntuple_is write seq skim merge' -l max-file -x -d 'The most bytes of the file, 1024 to 72057594037927936'
complete -c ntuple -n '__ntuple_is write' -l staged -d 'The clusters of each input are published together, at its end'
complete -c ntuple -n '__ntuple_is write' -l contexts -x -d 'How many contexts run at the same time, 1 to 64'

complete -c ntuple -n '__ntuple_is skim' -l where -x -d 'The field whose number is tested'
complete -c ntuple -n '__ntuple_is skim' -l least -x -d 'The least number that passes, -9223372036854775808 to 18446744073709551615'
complete -c ntuple -n '__ntuple_is skim' -l greatest -x -d 'The greatest number that passes, -9223372036854775808 to 18446744073709551615'

complete -c ntuple -n '__ntuple_is entries' -l from -x -d 'The first entry, 0 to 18446744073709551615'
complete -c ntuple -n '__ntuple_is entries' -l count -x -d 'The most entries, 0 to 18446744073709551615'
