# Completion of dhall for fish.

complete -c dhall -f
function __dhall_is_first
    test (count (commandline -opc)) -eq 1
end
function __dhall_may_have_workers
    # (the number is one word more)
    contains -- (count (commandline -opc)) 2 3
end
complete -c dhall -n __dhall_is_first -a encode -d 'write the binary form of the expression'
complete -c dhall -n __dhall_is_first -a decode -d 'print the expression of which the input is the binary form'
complete -c dhall -n __dhall_is_first -a resolve -d 'print the expression with a value for each import'
complete -c dhall -n __dhall_is_first -a type -d 'print its type'
complete -c dhall -n __dhall_is_first -a normalize -d 'print its normal form'
complete -c dhall -n __dhall_is_first -a hash -d 'print the digest of its normal form'
complete -c dhall -n __dhall_is_first -a to-json -d 'print the JSON text of its normal form'
complete -c dhall -n __dhall_is_first -a freeze -d 'write the input with a digest after each import that has none'
complete -c dhall -n __dhall_is_first -a batch -d 'print the digest of each file'
complete -c dhall -n __dhall_is_first -a steps -d 'print the expression after one step at each place'
complete -c dhall -n __dhall_is_first -a gen -d 'print how many imports and fetches a list of generated texts takes, and its digest'
complete -c dhall -n __dhall_is_first -a explain -d 'print what a rule of typing wants, or the list of the rules'
complete -c dhall -n __dhall_is_first -a help -d 'print the commands and the statuses'
complete -c dhall -n __dhall_is_first -s h -l help -d 'print the commands and the statuses'
complete -c dhall -n __dhall_is_first -l version -d 'print the versions of the program and of the standard'
complete -c dhall -n __dhall_may_have_workers -l workers -x -a '1 2 4 8 16 32 64' -d 'how many workers resolve imports'
complete -c dhall -F -n 'test (count (commandline -opc)) -ge 2; and contains -- batch (commandline -opc)' -d 'a file'
complete -c dhall -n 'test (count (commandline -opc)) -ge 2; and contains -- steps (commandline -opc)' -a root -d 'a place'
complete -c dhall -n 'test (count (commandline -opc)) -eq 2; and contains -- gen (commandline -opc)' -a '0 10 100 1000 4000' -d 'the number of the last text'
complete -c dhall -n 'test (count (commandline -opc)) -eq 2; and contains -- explain (commandline -opc)' -a '(seq 56)' -d 'a rule'
