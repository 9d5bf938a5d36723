# Completion of the words of pmb in fish (docs/program.md#completion): subcommands, flags, FORMATs, sources, files,
# and addresses of devices. (The profiles of parts are in /usr/share/pmb/profiles.)

# Whether the words have one of some subcommands.
function __pmb_is
    set -l words (commandline -opc)
    contains -- "$words[2]" $argv
end

# Whether a subcommand still lacks its word.
function __pmb_lacks
    set -l words (commandline -opc)
    contains -- "$words[2]" $argv; and not string match -qrv -- '^-' $words[3..-1]
end

# Whether import has its source.
function __pmb_has_source
    __pmb_is import; and not __pmb_lacks import
end

# The addresses of the devices of the profiles in this folder, or where the words say so of the sample.
function __pmb_devices
    if contains -- --sample (commandline -opc)
        pmb profile --sample 2>/dev/null | string replace -rf '^address +([0-9a-f]{2}),.*' '$1'
    else
        cat -- *.toml /dev/null 2>/dev/null |
            string lower | string replace -rf '^\s*address\s*=\s*0x([0-9a-f]{2}).*' '$1' | sort -u
    end
end

# The names of the parts, each with the mark before its address.
function __pmb_parts
    pmb parts 2>/dev/null | string replace -r ' .*' '@'
end

# What the value of --fail-on can be, after what stands there.
function __pmb_fail_on
    set -l so_far (commandline -ct | string replace -r '^--fail-on=' '' | string match -r '.*,')
    printf '%s\n' "$so_far"{refusals,bad-tokens,nacks,alerts,faults,none-read}
end

# What FORMAT can be.
function __pmb_formats
    printf '%s\n' linear11 linear11:(seq -16 15) ulinear16:(seq -16 15) slinear16:(seq -16 15) half direct: \
        udirect: vid:{vr11,vr12,vr13,imvp9,amd625mv,nvidia195mv} vout:
end

# The names of faults.
function __pmb_names
    pmb explain 2>/dev/null | string replace -r '^[^:]*: ' '' | string split ' ' | sort -u
end

set -l capture json log stats
set -l sampled show check build run profile $capture
complete -c pmb -f
complete -c pmb -n __fish_use_subcommand -a import -d 'Make a capture of what was recorded'
complete -c pmb -n __fish_use_subcommand -a show -d 'Write the transactions of a capture'
complete -c pmb -n __fish_use_subcommand -a check -d 'Write the refusals of a capture'
complete -c pmb -n __fish_use_subcommand -a json -d 'Write what a capture says, as JSON'
complete -c pmb -n __fish_use_subcommand -a log -d 'Write what a capture says, for people'
complete -c pmb -n __fish_use_subcommand -a stats -d 'Sum a capture up'
complete -c pmb -n __fish_use_subcommand -a build -d 'Write the bus events of transactions'
complete -c pmb -n __fish_use_subcommand -a run -d 'Run requests on simulated devices'
complete -c pmb -n __fish_use_subcommand -a profile -d 'Show the bus that a profile makes'
complete -c pmb -n __fish_use_subcommand -a scan -d 'Write a first profile from a capture'
complete -c pmb -n __fish_use_subcommand -a parts -d 'Write the profile of a board of parts'
complete -c pmb -n '__pmb_is parts' -a '(__pmb_parts)' -d part
complete -c pmb -n __fish_use_subcommand -a encode -d 'Write the code of each quantity'
complete -c pmb -n __fish_use_subcommand -a decode -d 'Write the quantity of each code'
complete -c pmb -n __fish_use_subcommand -a explain -d 'Say what the name of a fault means'
complete -c pmb -n __fish_use_subcommand -a help -d 'Print the help of a subcommand'
complete -c pmb -n __fish_use_subcommand -s V -l version -d 'Print version'
complete -c pmb -s h -l help -d 'Print help'
complete -c pmb -n '__pmb_lacks help' -a 'import log stats show check json profile scan parts build run encode decode help'
complete -c pmb -n '__pmb_lacks import' -a 'sigrok saleae beagle kernel smbus'
complete -c pmb -n '__pmb_is explain' -a '(__pmb_names)'
complete -c pmb -n '__pmb_lacks encode decode' -a '(__pmb_formats)'
complete -c pmb -n '__pmb_is import' -l bus -x -d 'The bus, as the recording names it'
complete -c pmb -n '__pmb_is import' -l rate -x -d 'For sigrok: samples a second'
complete -c pmb -n '__pmb_is import' -l unshifted -d 'For sigrok: an address is a whole byte'
complete -c pmb -n "__pmb_is $sampled scan; or __pmb_has_source" -F
complete -c pmb -n "__pmb_is $sampled import scan" -l joined -d 'Read several files as one'
complete -c pmb -n "__pmb_is $sampled" -s p -l profile -r -F -d 'Take the profile from this file'
complete -c pmb -n "__pmb_is $sampled" -l part -x -a '(__pmb_parts)' -d 'Take the profile of a board of parts'
complete -c pmb -n "__pmb_is $sampled" -l sample -d 'Take the sample profile'
complete -c pmb -n "__pmb_is $capture" -l late -d 'The capture begins in the middle'
complete -c pmb -n "__pmb_is $capture" -l fixed-vout-mode -d 'With --late, VOUT_MODE begins as the profile says'
complete -c pmb -n "__pmb_is $capture" -l keep-going -d 'After a word that is no token, read on'
complete -c pmb -n "__pmb_is $capture" -l digits -x -a '(seq 0 12)' -d 'The most digits after the point'
complete -c pmb -n "__pmb_is $capture" -l device -x -a '(__pmb_devices)' -d 'Write only what is of this device'
complete -c pmb -n '__pmb_is log stats' -l color -x -a 'auto always never' -d 'Whether there is colour'
complete -c pmb -n '__pmb_is stats' -l json -d 'Write objects, one a line'
complete -c pmb -n '__pmb_is stats' -l fail-on -x -a '(__pmb_fail_on)' -d 'What makes the exit status 1'
