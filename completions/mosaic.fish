# Completion of the words of mosaic, for fish.

# Whether the word to be completed is the one with this number; the subcommand is number 1.
function __mosaic_at
    set -l words (commandline -opc)
    test (count $words) -eq $argv[1]
end

function __mosaic_at_of
    set -l words (commandline -opc)
    test (count $words) -eq $argv[1]; and contains -- $words[2] $argv[2..]
end

complete -c mosaic -f
complete -c mosaic -n '__mosaic_at 1' -a format -d 'make a store for tiles of one side'
complete -c mosaic -n '__mosaic_at 1' -a import -d 'import one HGT file'
complete -c mosaic -n '__mosaic_at 1' -a serve -d 'answer lines from standard input'
complete -c mosaic -n '__mosaic_at 1' -a table -d 'answer lines on an empty mosaic in memory'
complete -c mosaic -n '__mosaic_at 1' -a check -d 'report on a store'
complete -c mosaic -n '__mosaic_at 1' -a upgrade -d 'make a store of version 1 one of version 2'
complete -c mosaic -n '__mosaic_at_of 2 format import serve check upgrade' -F
complete -c mosaic -n '__mosaic_at_of 3 import' -a '(__fish_complete_suffix .hgt)'
complete -c mosaic -n '__mosaic_at_of 3 format; or __mosaic_at_of 2 table' -a '1201\t"3 arc seconds" 3601\t"1 arc second"'
complete -c mosaic -n '__mosaic_at_of 4 format; or __mosaic_at_of 3 table' -a '1 4 16 100 240' -d capacity
