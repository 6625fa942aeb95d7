#!/bin/sh
# mbpoll before|after DEVICE: one line for each step, exit status 1 where one went wrong.
# mbpoll rounds DEVICE SENSOR COUNT serial|radio: so many calibrations of sensor 1 or 4 at clock 1767225600, a line with the words of the entry for each,
# and a line with the number of requests.
#
# What mbpoll can't do: a mask write (function 22); a request that code 3 answers (it refuses wrong counts itself). It names codes 1 and 2; any
# code above 11, such as 0x92, it shows as 'Invalid exception code', without its number.
set -u
phase=$1 device=$2
failed=0 asked=0 refusals=0
other='Invalid exception code'

result() { # 0 or not, what, what was got
    if [ "$1" = 0 ]; then echo "ok     $2"; else echo "FAILED $2, got: $3"; failed=1; fi
}

# References count from 0 (-0), once (-1); a pseudo-terminal has no parity.
poll() {
    mbpoll -m rtu -a 17 -b 19200 -P none -s 2 -o 5 -0 -1 "$@" 2>&1
}

got() { # type, register, how many values
    poll -t "$1" -B -r "$2" -c "$3" "$device" | sed -n 's/^\[[0-9]*\]:[[:blank:]]*\([^ ]*\).*/\1/p' | xargs
}

reads() { # type, register, the values, what
    asked=$((asked + 1))
    got=$(got "$1" "$2" "$(echo "$3" | wc -w)")
    result "$([ "$got" = "$3" ]; echo $?)" "$4: $3" "$got"
}

# One value: of type 4 by function 6, of the types 4:int and 4:float by function 16.
writes() { # type, register, value, what
    asked=$((asked + 1))
    got=$(poll -t "$1" -B -r "$2" "$device" -- "$3")
    status=$?
    case $got in *'Written 1 references.'*) ;; *) status=1 ;; esac
    result "$status" "write $4" "$got"
}

refused() { # what mbpoll says, what, then the words for mbpoll
    said=$1 what=$2
    shift 2
    asked=$((asked + 1)) refusals=$((refusals + 1))
    if got=$(poll "$@"); then status=1; else status=0; fi
    case $got in *"failed: $said"*) ;; *) status=1 ;; esac
    result "$status" "$what: $said" "$got"
}

sensor() { # number, the words at its start, the coefficients
    reads 4 "${1}00" "$2" "sensor $1"
    reads 4:float "${1}10" "$3" "sensor $1, coefficients"
    [ "$1" = 3 ] || reads 4:float "${1}16" '0 0 0 0' "sensor $1, points"
}

parameter() { # register, value, 'id units quality', available units
    reads 4:float "$1" "$2" "parameter at $1"
    reads 4 "$(($1 + 2))" "$3" 'id, units, quality'
    reads 4:float "$(($1 + 5))" 0 sentinel
    reads 4 "$(($1 + 7))" "$4" 'available units'
}

map() {
    reads 4 0 '3 1 26965 47360 0 0 0 3 0 0' 'device'
    reads 4:int 2 1767225600 'clock'
    sensor 1 '1 0 0 0 0 0 0 3' '0 1'
    sensor 2 '2 0 0 0 0 0 0 1' '0 1'
    sensor 3 '3 0 0 0 0 0' '0 0 0'
    reads 4 307 2 'sensor 3, number of parameters'
    sensor 4 '4 0 0 0 0 0 0 1' '0 1'
    parameter 130 20 '1 1 0' 3
    parameter 138 1000 '9 65 0' 1
    parameter 146 1000 '11 81 0' 1 # 1000000 / 1000
    parameter 230 8 '20 117 0' 16
    parameter 330 14.7 '2 17 0' 61
    parameter 338 10.3351 '3 35 0' 4 # 14.7 × 0.70307
    parameter 430 5 '51 118 0' 32
}

writing() {
    writes 4 133 2 'units of the temperature: °F'
    reads 4 133 2 'units of the temperature'
    reads 4:float 130 68 'temperature' # 20 × 1.8 + 32
    writes 4:int 103 1800000000 'next calibration of sensor 1'
    reads 4:int 103 1800000000 'next calibration of sensor 1'
    writes 4:float 435 -999.5 'sentinel of the chlorophyll'
    reads 4:float 435 -999.5 'sentinel of the chlorophyll'
    writes 4 9 7 'technician 7'
    reads 4 9 7 'technician'
}

refusing() {
    refused 'Illegal function' 'code 1, input registers' -t 3 -r 0 "$device"
    refused 'Illegal data address' 'code 2, register 10' -r 10 "$device"
    refused 'Illegal data address' 'code 2, no method on sensor 3' -r 300 -c 8 "$device"
    refused "$other" 'code 0x80, half of a float' -r 110 "$device" 16256
    refused "$other" 'code 0xC2, the version of the map' -r 0 "$device" 4
    refused "$other" 'code 0x92, method with mode off' -r 106 "$device" 1
    refused "$other" 'code 0x92, update with mode off' -r 105 "$device" 0xE001
    refused "$other" 'code 0x84, units that are not listed' -r 133 "$device" 7
}

calibration() {
    writes 4 105 0xE000 'mode on'
    reads 4 105 1 'mode'
    reads 4 142 6 'quality of the conductivity'
    writes 4 106 1 'method: one point'
    refused "$other" 'code 0x97, update with x1 = 0' -r 105 "$device" 0xE001
    writes 4:float 116 1000 'x1 = 1000'
    writes 4:float 118 5000 'y1 = 5000'
    refused "$other" 'code 0x97, a constant outside the limits' -r 105 "$device" 0xE001
    reads 4:float 110 '0 5' 'sensor 1, coefficients of the failed update'
    reads 4 8 0 'entries in use'
    writes 4:float 118 1250 'y1 = 1250'
    writes 4 105 0xE001 'update'
    writes 4 105 0xE002 'mode off'
    reads 4:float 110 '0 1.25' 'sensor 1, coefficients'
    reads 4:int 101 '1767225600 0' 'last and next calibration'
    reads 4:float 138 1250 'conductivity' # 0 + (1.25 × 1000)
    reads 4:float 146 800 'resistivity'   # 1000000 / 1250
    reads 4 8 1 'entries in use'
}

powered_up() {
    reads 4 0 '3 1 26967 2688 0 0 0 3 1 0' 'device'
    reads 4:float 110 '0 1.25' 'sensor 1, coefficients'
    reads 4:int 101 '1767225600 0' 'last and next calibration'
    reads 4 105 '0 0' 'mode and method'
    reads 4:float 138 1250 'conductivity'
    reads 4 133 1 'units of the temperature'
    reads 4:float 435 0 'sentinel of the chlorophyll'
}

full() {
    writes 4 205 0xE000 'mode on, sensor 2'
    writes 4:float 212 1.125 'slope 1.125'
    writes 4 205 0xE001 'update'
    writes 4:float 210 -0.125 'offset -0.125'
    writes 4 9 65535 'technician 65535'
    reads 4 9 65535 'technician'
    writes 4 205 0xE001 'update'
    refused "$other" 'code 0xC0, the journal is full' -r 205 "$device" 0xE001
    writes 4 205 0xE002 'mode off'
    reads 4:float 210 '-0.125 1.125' 'sensor 2, coefficients'
    reads 4:float 230 8.875 'oxygen' # -0.125 + (1.125 × 8)
    reads 4 8 3 'entries in use'
}

words() { # register: four words in hexadecimal
    asked=$((asked + 1))
    words=$(got 4:hex "$1" 4 | sed 's/0x//g' | tr A-F a-f)
}

# A calibration by the point (8 + k, y), whose slope is 1 to 31/16. Of its entry words 1 to 23 are printed, the floats as mbpoll reads them.
calibrates() { # sensor, k, what is said of 30 registers
    x=$((8 + $2))
    slope=$(awk "BEGIN { print (16 + $2 % 16) / 16 }")
    y=$(awk "BEGIN { print $x * $slope }")
    writes 4 "${1}05" 0xE000 'mode on'
    writes 4 "${1}06" 1 'method: one point'
    writes 4:float "${1}16" "$x" "x1 = $x"
    writes 4:float "${1}18" "$y" "y1 = $y"
    reads 4:float "${1}16" "$x $y" 'the point'
    words "${1}16"
    points=$words
    refused "$3" '30 registers' -r 0 -c 30 "$device"
    writes 4 "${1}05" 0xE001 'update'
    reads 4:float "${1}10" "0 $slope" 'coefficients'
    words "${1}10"
    writes 4 "${1}05" 0xE002 'mode off'
    reads 4 "${1}00" "$1 26965 47360 0 0 0" 'its number, last and next calibration, mode'
    echo "entry 000$1 0001 0000 6955 b900 $words 0000 0000 $points 0000 0000 0000 0000 0000 0000 0000 0000"
}

rounds() { # sensor, count, port
    said='Illegal data address'
    [ "$3" = serial ] || said='Illegal data value'
    for k in $(seq 0 $(($2 - 1))); do calibrates "$1" "$k" "$said"; done
    echo "asked $asked"
    exit "$failed"
}

case $phase in
before) map; writing; refusing; calibration ;;
after) powered_up; full ;;
rounds) rounds "$3" "$4" "$5" ;;
esac
reads 4 4 "$asked 0 $refusals" 'good, bad and refused frames'
exit "$failed"
