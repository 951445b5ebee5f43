# Fields of a tree that `json` shows. `include "fields";` in a program of jq takes them in.

# The number that the bits of a field are: the digits, without what fills up the last octet. Up to 53 bits.
def number:
    if . == "." then 0
    else split("/") as [$digits, $bits]
        | reduce ($digits | explode[]) as $digit (0; . * 16 + $digit - (if $digit > 57 then 55 else 48 end))
        | if $bits then . / pow(2; 8 - ($bits | tonumber)) else . end
    end;

# Each number of a field with this label, in the order of the block.
def numbers($name): .. | objects | select(.label == $name and (.tree | type) == "string") | .tree | number;

# The first of them, or `-` where the block has none.
def column($name): first(numbers($name)) // "-";
