# Completion of bibtex-why for fish.

# Prints the jobs that the present word begins, and the folders.
function __fish_bibtex_why_jobs
    set -l word (string unescape -- (commandline -ct))
    set -l folder (string replace -r '[^/]*$' '' -- $word)
    for file in (string replace -r '^~/' $HOME/ -- $folder)*.aux
        echo $folder(basename $file .aux)
    end
    __fish_complete_directories $word ''
end

complete -c bibtex-why -f -a '(__fish_bibtex_why_jobs)'
complete -c bibtex-why -o exact -l exact -d 'Begin a row also where a built-in function changed letters'
complete -c bibtex-why -o messages -l messages -d 'Show where messages come from'
complete -c bibtex-why -o format -l format -x -a 'text json' -d 'Print text or JSON'
complete -c bibtex-why -o min-crossrefs -l min-crossrefs -x -d 'As for bibtex'
complete -c bibtex-why -o version -l version -d 'Print the version'
complete -c bibtex-why -o help -l help -d 'Print a summary of the options'
