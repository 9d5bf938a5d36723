# Completion of the words of pmb-i2cd in fish (docs/i2cd.md): its options, and as PROFILE files and the profiles of
# parts that are installed. After `--run --` come a command's words.

function __pmb_i2cd_parts
    set -l program (command -s pmb-i2cd)
    for folder in (string replace -r '/bin/pmb-i2cd$' '' -- "$program")/share/pmb/profiles \
            /usr/local/share/pmb/profiles /usr/share/pmb/profiles
        if test -d $folder
            printf '%s\n' $folder/*.toml
            return
        end
    end
end

# Whether the words of a command have begun.
function __pmb_i2cd_runs
    contains -- -- (commandline -opc)
end

complete -c pmb-i2cd -n 'not __pmb_i2cd_runs' -k -a '(__pmb_i2cd_parts)' -d 'profile of a part'
complete -c pmb-i2cd -n 'not __pmb_i2cd_runs' -l socket -r -d 'Serve programs at this socket'
complete -c pmb-i2cd -n 'not __pmb_i2cd_runs' -l cuse -x -a 'i2c-0 i2c-1 i2c-7' -d 'Make the device /dev/NAME'
complete -c pmb-i2cd -n 'not __pmb_i2cd_runs' -l log -r -d 'Append what is on the wire'
complete -c pmb-i2cd -n 'not __pmb_i2cd_runs' -l shim -r -d 'The library to load into the command'
complete -c pmb-i2cd -n 'not __pmb_i2cd_runs' -l run -d 'Run a command, after --'
complete -c pmb-i2cd -n 'not __pmb_i2cd_runs' -s h -l help -d 'Print help'
complete -c pmb-i2cd -n __pmb_i2cd_runs -x -a '(__fish_complete_subcommand --fcs-skip=(contains -i -- -- (commandline -opc)))'
