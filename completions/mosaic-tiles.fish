# Completion of the words of mosaic-tiles, for fish: those of mosaic, and two more.

# Whether the word to be completed is of `write`, after at least so many words.
function __mosaic_tiles_writes
    set -l words (commandline -opc)
    test (count $words) -ge $argv[1]; and test $words[2] = write
end

complete -c mosaic-tiles -f -w mosaic
complete -c mosaic-tiles -n 'test (count (commandline -opc)) -eq 1' -a write -d 'write the levels, directions or upstream counts of tiles as files'
complete -c mosaic-tiles -n 'test (count (commandline -opc)) -eq 1' -a read -d 'answer questions about a store that another program edits'
complete -c mosaic-tiles -n '__fish_seen_subcommand_from read; and test (count (commandline -opc)) -eq 2' -F
complete -c mosaic-tiles -n '__mosaic_tiles_writes 2; and not __mosaic_tiles_writes 3' -F
complete -c mosaic-tiles -n '__mosaic_tiles_writes 3; and not __mosaic_tiles_writes 4' -a 'levels directions upstream'
complete -c mosaic-tiles -n '__mosaic_tiles_writes 4; and not __mosaic_tiles_writes 5' -a all -d 'each tile'
complete -c mosaic-tiles -n '__mosaic_tiles_writes 5' -a '(__fish_complete_directories)'
