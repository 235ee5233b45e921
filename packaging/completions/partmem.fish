# Completions of partmem, framemap and partcheck for fish.
for program in partmem framemap partcheck
    complete -c $program -l order -x -a '3 4 5 6 7 8' -d 'A superblock has 2^S frames'
    complete -c $program -l superblocks -x -d 'Number of superblocks, 1 to 256'
    complete -c $program -l tenants -x -d 'Number of tenants, 1 to 64'
    complete -c $program -s h -l help -d 'Print help'
    complete -c $program -s V -l version -d 'Print the version'
end
for program in partmem framemap
    complete -c $program -l only -x -d 'Only this tenant'
end
complete -c partmem -l own -x -d 'The own list of this tenant, instead of replies'
complete -c partmem -l tally -d 'Print on standard error what was done, refused and faulty'
complete -c framemap -l columns -x -d 'Largest number of columns, 1 to 4096'
complete -c framemap -l figures -d 'A table of the figures, instead of the picture'
