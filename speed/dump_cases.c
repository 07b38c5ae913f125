#include "dump_cases.h"

/* Sound definitions take lines 1 to 8, the first time with its values lines 9 to 13. With two skipped wires they take ten lines. */
#define SCALE "$timescale 1 us $end\n"
#define SCOPE "$scope module m $end\n"
#define VAR(code, name) "$var wire 1 " code " " name " $end\n"
#define THREE VAR("!", "SCL") VAR("\"", "SDA") VAR("#", "WP")
#define FOUR THREE VAR("$", "VCC")
#define UP "$upscope $end\n"
#define DONE UP "$enddefinitions $end\n"
#define HEAD SCALE SCOPE FOUR DONE
#define SIX SCALE SCOPE FOUR VAR("%", "D4") VAR("&", "D5") DONE
#define VALUES "1!\n1\"\n0#\n1$\n"
#define FIRST HEAD "#0\n" VALUES

/* What makes a dump of a timescale, and so on: where these follow, the one fault is before them. */
#define AFTER_SCOPE FOUR DONE "#0\n" VALUES
#define AFTER_SCALE SCOPE AFTER_SCOPE
#define AFTER_SCL VAR("\"", "SDA") VAR("#", "WP") VAR("$", "VCC") DONE "#0\n" VALUES
#define AFTER_VARS DONE "#0\n" VALUES
#define AFTER_UP "$enddefinitions $end\n#0\n" VALUES

#define CASE(number, line, text) {text, sizeof(text) - 1, number, line}
#define TAKEN(text) CASE(0, 0, text)

const struct dump_case dump_cases[] = {
    TAKEN(FIRST),
    TAKEN(FIRST "#1\n0!\n#2\n1!\n0!\n1!\n"),
    TAKEN(FIRST "#4294967295"),
    TAKEN(FIRST "\n\n#00000000000000000000000000000000000000000001\n\n"),
    TAKEN(HEAD "#4294967295\n" VALUES),
    TAKEN(HEAD "#000\n" VALUES "#1"),
    TAKEN(HEAD "#5 1! 1\" 0# 1$ #6 0! #7"),
    TAKEN("$timescale 1us $end $scope module m $end $var wire 1 ! SCL $end $var wire 1 \" SDA $end $var wire 1 # WP $end "
          "$var wire 1 $ VCC $end $upscope $end $enddefinitions $end #0 1! 1\" 0# 1$"),
    TAKEN("\t$timescale\r\n1\r\nus\r\n$end\r$scope\tfork\tf\t$end\r\n$var\nwire\n1\n!\nSCL\n$end\r\n" VAR("\"", "SDA")
          VAR("#", "WP") VAR("$", "VCC") "$upscope\n$end\n$enddefinitions\n\n$end\r\n#0\r\n1!\r\n1\"\r\n0#\r\n1$\r\n"),
    TAKEN(SCALE "$scope task t $end\n" FOUR DONE "#0\n" VALUES),
    TAKEN(SCALE "$scope function f $end\n" FOUR DONE "#0\n" VALUES),
    TAKEN(SCALE "$scope begin $scope $end\n" FOUR DONE "#0\n" VALUES),
    /* skipped sections, with any bytes inside */
    TAKEN("$version $var wire 2 $end $date $end $comment \0\xFF\x7F\v $ends 1! #5\n$enddefinitions $end\n" SCALE
          "$comment $end $date x $end\n" SCOPE "$version v $end\n" VAR("!", "SCL") "$comment\n\n$end\n" VAR("\"", "SDA")
          VAR("#", "WP") VAR("$", "VCC") "$date d $end\n" UP "$comment c $end $enddefinitions $end $comment \xC3\xA9 $end\n#0\n"
          VALUES "$comment $dumpvars $end #1 $comment 1? $end 0! $comment\n$end"),
    /* skipped wires: x and z pass, and they need no value */
    TAKEN(SIX "#0\nx%\nZ&\n" VALUES "#1 z% X& 1% 0& x%\n"),
    TAKEN(SIX "#0\n" VALUES),
    /* z on SDA */
    TAKEN(HEAD "#0\n1! z\" 0# 1$ #1 Z\" 0\" #2 z\"\n"),
    /* codes and names: one for all, names with capitals, longer codes, those that look like something else */
    TAKEN(SCALE SCOPE VAR("!", "SCL") VAR("!", "SDA") VAR("!", "WP") VAR("!", "VCC") DONE "#0 1! #1 0!\n"),
    TAKEN(SCALE SCOPE VAR("!!", "SCL") VAR("!!", "SDA") VAR("!!", "WP") VAR("!!", "VCC") VAR("!!", "D4") DONE "#0 1!! #1 0!!\n"),
    TAKEN(SCALE SCOPE VAR("!", "scl") FOUR VAR("\"", "SCL2") VAR("\"", "SDA[0]") VAR("%", "SCL2") DONE "#0\n" VALUES "z\" x%\n"),
    TAKEN(SCALE SCOPE VAR("!!", "SCL") VAR("$en", "SDA") VAR("#5", "WP") VAR("$var", "VCC") VAR("!", "D4") DONE
          "#0 1!! 1$en 0#5 1$var #1 0!! x!\n"),
    TAKEN(SCALE SCOPE VAR("1", "SCL") VAR("x", "SDA") VAR("z0", "WP") VAR("$$", "VCC") DONE "#0 11 zx 0z0 1$$\n"),
    TAKEN(SCALE SCOPE FOUR VAR("%", "$var") VAR("%", "[0]") VAR("%", "$comment") DONE "#0\n" VALUES),
    TAKEN(HEAD "$dumpvars $end $comment 1! $end $dumpvars\n$end\n#0 $dumpvars 1! 1\" $end $dumpvars 0# $end 1$\n"
          "#1\n$dumpvars $end"),

    /* 20, the end too early: at the last line */
    CASE(20, 1, ""),
    CASE(20, 1, " "),
    CASE(20, 1, "\n"),
    CASE(20, 2, "\n\n"),
    CASE(20, 2, "\n "),
    CASE(20, 6, SCALE SCOPE FOUR),
    CASE(20, 7, SCALE SCOPE FOUR "$upscope $end"),
    CASE(20, 9, SCALE SCOPE FOUR UP "$enddefinitions\n\n"),
    CASE(20, 3, "$comment never ends\n\n\n"),
    /* 20 in a timescale */
    CASE(20, 1, "$timescale 10 us $end\n" AFTER_SCALE),
    CASE(20, 3, "$timescale\n1\nns\n$end\n" AFTER_SCALE),
    CASE(20, 2, "$timescale 1us\nus $end\n" AFTER_SCALE),
    CASE(20, 2, "$timescale 1\n$end\n" AFTER_SCALE),
    CASE(20, 2, "$timescale\n$end\n" AFTER_SCALE),
    CASE(20, 2, "$timescale 1 us\n2 $end\n" AFTER_SCALE),
    CASE(20, 1, "$timescale 1u s $end\n" AFTER_SCALE),
    CASE(20, 1, "$timescale 1 US $end\n" AFTER_SCALE),
    CASE(20, 1, "$timescale 01 us $end\n" AFTER_SCALE),
    /* 20, a section too early, twice or of no such name */
    CASE(20, 1, AFTER_SCALE),
    CASE(20, 1, SCOPE SCALE AFTER_SCOPE),
    CASE(20, 2, SCALE SCALE AFTER_SCALE),
    CASE(20, 2, SCALE VAR("%", "D4") AFTER_SCALE),
    CASE(20, 2, SCALE UP AFTER_SCALE),
    CASE(20, 2, SCALE AFTER_VARS),
    CASE(20, 2, SCALE AFTER_UP),
    CASE(20, 3, SCALE SCOPE SCOPE AFTER_SCOPE),
    CASE(20, 3, SCALE SCOPE SCALE AFTER_SCOPE),
    CASE(20, 7, SCALE SCOPE FOUR AFTER_UP),
    CASE(20, 7, SCALE SCOPE FOUR SCOPE UP AFTER_VARS),
    CASE(20, 8, SCALE SCOPE FOUR UP AFTER_VARS),
    CASE(20, 8, SCALE SCOPE FOUR UP VAR("%", "D4") AFTER_UP),
    CASE(20, 8, SCALE SCOPE FOUR UP SCOPE AFTER_VARS),
    CASE(20, 8, SCALE SCOPE FOUR UP SCALE AFTER_UP),
    CASE(20, 9, HEAD AFTER_UP),
    CASE(20, 1, "hello\n" HEAD "#0\n" VALUES),
    CASE(20, 2, SCALE "#0\n" AFTER_SCALE),
    CASE(20, 1, "$end\n" HEAD "#0\n" VALUES),
    CASE(20, 1, "$dumpvars $end\n" HEAD "#0\n" VALUES),
    CASE(20, 1, "$attrbegin misc $end\n" HEAD "#0\n" VALUES),
    CASE(20, 1, "$Date d $end\n" HEAD "#0\n" VALUES),
    CASE(20, 1, "$TIMESCALE 1 us $end\n" AFTER_SCALE),
    CASE(20, 1, "$timescale\v1 us $end\n" AFTER_SCALE),
    CASE(20, 1, "\0\n" HEAD "#0\n" VALUES),
    CASE(20, 3, "$comment $end$end\n" HEAD "#0\n" VALUES), /* goes on to the timescale's $end */
    /* 20 inside $scope, $var, $upscope and $enddefinitions */
    CASE(20, 2, SCALE "$scope struct m $end\n" AFTER_SCOPE),
    CASE(20, 3, SCALE "$scope\nMODULE m $end\n" AFTER_SCOPE),
    CASE(20, 3, SCALE "$scope module\n$end\n" AFTER_SCOPE),
    CASE(20, 3, SCALE "$scope module\n$end $end\n" AFTER_SCOPE),
    CASE(20, 3, SCALE "$scope module a\nb $end\n" AFTER_SCOPE),
    CASE(20, 2, SCALE "$scope module \x80 $end\n" AFTER_SCOPE),
    CASE(20, 2, SCALE "$scope module a\x1F $end\n" AFTER_SCOPE),
    CASE(20, 3, SCALE SCOPE "$var reg 1 ! SCL $end\n" AFTER_SCL),
    CASE(20, 3, SCALE SCOPE "$var wire 8 ! SCL $end\n" AFTER_SCL),
    CASE(20, 3, SCALE SCOPE "$var wire 01 ! SCL $end\n" AFTER_SCL),
    CASE(20, 3, SCALE SCOPE "$var reg 1 % D4 $end\n" AFTER_SCOPE),
    CASE(20, 3, SCALE SCOPE "$var wire 8 % D4 [7:0] $end\n" AFTER_SCOPE),
    CASE(20, 4, SCALE SCOPE "$var wire 1 ! SCL\n[0] $end\n" AFTER_SCL),
    CASE(20, 3, SCALE SCOPE "$var wire 1 $end SCL $end\n" AFTER_SCL),
    CASE(20, 4, SCALE SCOPE "$var wire 1 !\n$end\n" AFTER_SCOPE),
    CASE(20, 4, SCALE SCOPE "$var wire 1 !\n$end $end\n" AFTER_SCOPE),
    CASE(20, 4, SCALE SCOPE "$var wire 1 ! SCL\n$var\n" AFTER_SCL),
    CASE(20, 3, SCALE SCOPE "$var wire 1 \x7F D4 $end\n" AFTER_SCOPE),
    CASE(20, 3, SCALE SCOPE "$var wire 1 % \x7F $end\n" AFTER_SCOPE),
    CASE(20, 3, SCALE SCOPE "$var wire 1 ! SC\xC3\x8C $end\n" AFTER_SCOPE),
    CASE(20, 3, SCALE SCOPE "$var wire 1 ! SCL"),
    CASE(20, 7, SCALE SCOPE FOUR "$upscope m\n$end\n" AFTER_UP),
    CASE(20, 9, SCALE SCOPE FOUR UP "$enddefinitions\nx $end\n#0\n" VALUES),
    /* 20, values */
    CASE(20, 9, HEAD "1!\n"),
    CASE(20, 10, HEAD "$dumpvars\n1!\n$end\n#0\n"),
    CASE(20, 14, FIRST "1%\n"),
    CASE(20, 14, FIRST "1!!\n"),
    CASE(20, 14, FIRST "1\n"),
    CASE(20, 14, FIRST "1"),
    CASE(20, 15, FIRST "\n1 !\n"),
    CASE(20, 14, FIRST "b1 !\n"),
    CASE(20, 14, FIRST "B0 !\n"),
    CASE(20, 14, FIRST "r1.5 !\n"),
    CASE(20, 14, FIRST "u!\n"),
    CASE(20, 14, FIRST "!\n"),
    CASE(20, 14, FIRST "1!\x01\n"),
    CASE(20, 14, FIRST "1!\x80\n"),
    CASE(20, 14, FIRST "1!#1\n"),
    CASE(20, 14, FIRST "\f\n"),
    CASE(20, 14, FIRST "\x80\n"),
    CASE(20, 14, FIRST "1$end\n"),
    /* 20, times */
    CASE(20, 14, FIRST "#\n"),
    CASE(20, 14, FIRST "# 5\n"),
    CASE(20, 14, FIRST "#x\n"),
    CASE(20, 14, FIRST "#5x\n"),
    CASE(20, 14, FIRST "#5\x01\n"),
    CASE(20, 14, FIRST "#5#6\n"),
    CASE(20, 14, FIRST "#5z\"\n"),
    CASE(20, 14, FIRST "#5$comment $end\n"),
    CASE(20, 14, FIRST "1!1!\n"),
    CASE(20, 14, FIRST "1!$dumpvars $end\n"),
    CASE(20, 14, FIRST "#-1\n"),
    CASE(20, 14, FIRST "#+1\n"),
    CASE(20, 14, FIRST "#1.5\n"),
    CASE(20, 14, FIRST "#4294967296\n"),
    CASE(20, 14, FIRST "#00000000004294967296\n"),
    CASE(20, 14, FIRST "#18446744073709551617\n"),
    CASE(20, 14, FIRST "#99999999999999999999999999999999999999999\n"),
    /* 20, sections among the changes */
    CASE(20, 14, FIRST "$dumpoff $end\n"),
    CASE(20, 14, FIRST "$dumpall $end\n"),
    CASE(20, 14, FIRST "$end\n"),
    CASE(20, 14, FIRST "$date d $end\n"),
    CASE(20, 14, FIRST "$version v $end\n"),
    CASE(20, 14, FIRST SCALE),
    CASE(20, 14, FIRST VAR("%", "D4")),
    CASE(20, 14, FIRST "$\n"),
    CASE(20, 15, FIRST "$dumpvars\n$comment c $end $end\n"),
    CASE(20, 15, FIRST "$dumpvars\n#1 $end\n"),
    CASE(20, 15, FIRST "$dumpvars\n$dumpvars $end $end\n"),
    CASE(20, 16, FIRST "#1\n$dumpvars $end\n$end\n"),
    CASE(20, 16, FIRST "$dumpvars\n1!\n\n"),
    CASE(20, 14, FIRST "$dumpvars"),
    CASE(20, 14, FIRST "$comment\n"),
    CASE(20, 15, FIRST "$comment\n\n"),

    /* 21, a wire named twice: at the name */
    CASE(21, 7, SCALE SCOPE FOUR VAR("%", "SCL") DONE "#0\n" VALUES),
    CASE(21, 4, SCALE SCOPE VAR("!", "SCL") VAR("!", "SCL") DONE),
    CASE(21, 8, SCALE SCOPE FOUR "$var wire 1 %\nVCC\n$end\n" DONE),
    CASE(21, 7, SCALE SCOPE FOUR "$var wire 1 % VCC\n[0] $end\n" DONE),
    CASE(20, 7, SCALE SCOPE FOUR "$var wire 1 % VCC [0] $end\n" DONE),
    CASE(20, 7, SCALE SCOPE FOUR VAR("%", "WP")), /* the end, in the same line */
    CASE(21, 7, SCALE SCOPE FOUR VAR("%", "WP") "\n"),
    CASE(21, 6, SCALE SCOPE THREE VAR("!", "WP") DONE),
    /* 21, a wire missing: at $enddefinitions */
    CASE(21, 7, SCALE SCOPE THREE DONE "#0\n1! 1\" 0#\n"),
    CASE(21, 7, SCALE SCOPE VAR("\"", "SDA") VAR("#", "WP") VAR("$", "VCC") DONE "#0\n"),
    CASE(21, 7, SCALE SCOPE VAR("!", "SCL") VAR("#", "WP") VAR("$", "VCC") DONE "#0\n"),
    CASE(21, 7, SCALE SCOPE VAR("!", "SCL") VAR("\"", "SDA") VAR("$", "VCC") DONE "#0\n"),
    CASE(21, 7, SCALE SCOPE THREE DONE),
    CASE(21, 4, SCALE SCOPE DONE),
    CASE(21, 8, SCALE SCOPE THREE VAR("$", "vcc") DONE "#0\n" VALUES),
    CASE(21, 8, SCALE SCOPE THREE VAR("$", "VCC[0]") DONE "#0\n" VALUES),
    CASE(21, 7, SCALE SCOPE THREE UP "$enddefinitions\nx $end\n"),
    CASE(20, 7, SCALE SCOPE THREE UP "$enddefinitions x $end\n"),
    CASE(20, 7, SCALE SCOPE THREE UP "$enddefinitions $end 1!\n"),
    CASE(21, 7, SCALE SCOPE THREE UP "$enddefinitions $end #5 x! #5\n"),

    /* 22 */
    CASE(22, 14, FIRST "#0\n"),
    CASE(22, 14, HEAD "#5\n" VALUES "#5\n"),
    CASE(22, 14, HEAD "#5\n" VALUES "#4\n#6\n"),
    CASE(22, 15, FIRST "#7\n#6 #8\n"),
    CASE(22, 15, FIRST "#10\n#09\n"),
    CASE(22, 14, FIRST "#1 #2 #2 #3\n"),
    CASE(22, 15, FIRST "#4294967295\n#0\n"),
    CASE(20, 14, FIRST "#0 1?\n"),
    CASE(22, 14, FIRST "#0\n1?\n"),
    CASE(20, 14, FIRST "#0 $dumpvars"),
    CASE(20, 14, FIRST "#0 $dumpvars\n"),
    CASE(22, 14, FIRST "#0 $dumpvars\n\n"),
    CASE(22, 14, FIRST "x! #0\n"),
    CASE(22, 9, HEAD "#5 1! #5\n"),

    /* 23, a value not allowed */
    CASE(23, 14, FIRST "x!\n"),
    CASE(23, 14, FIRST "X!\n"),
    CASE(23, 14, FIRST "z!\n"),
    CASE(23, 14, FIRST "Z!\n"),
    CASE(23, 14, FIRST "x\"\n"),
    CASE(23, 14, FIRST "X\"\n"),
    CASE(23, 14, FIRST "x#\n"),
    CASE(23, 14, FIRST "z#\n"),
    CASE(23, 14, FIRST "Z#\n"),
    CASE(23, 14, FIRST "X$\n"),
    CASE(23, 14, FIRST "z$\n"),
    CASE(23, 14, FIRST "x$ 1$\n"),
    CASE(23, 14, FIRST "x!\n#0\n"),
    CASE(23, 15, FIRST "$dumpvars\nx! $end\n"),
    CASE(23, 11, SCALE SCOPE VAR("!", "SCL") VAR("!", "SDA") VAR("#", "WP") VAR("$", "VCC") DONE "#0\n1! 0# 1$\nz!\n"),
    CASE(23, 10, HEAD "#0\nx!\n" VALUES),
    CASE(23, 9, HEAD "#0\r1!\r1\"\r0#\r1$\rx!\r\n"),
    CASE(20, 14, FIRST "x! 1?\n"),
    CASE(23, 14, FIRST "x!\n1?\n"),
    CASE(20, 14, FIRST "x! $comment"),
    CASE(23, 14, FIRST "x! $comment\nnever\n"),
    /* 23, a wire without a value: at the second time, or at the end */
    CASE(23, 13, HEAD "#0\n1!\n1\"\n0#\n#1\n1$\n"),
    CASE(23, 13, HEAD "#0\n1!\n1\"\n0#\n#1 1$ #2\n"),
    CASE(23, 17, SIX "#0\n1%\n1&\n1!\n1\"\n0#\n#1\n"),
    CASE(23, 12, HEAD "#0\n1!\n1\"\n0#\n"),
    CASE(23, 12, HEAD "#0\n1!\n1\"\n1$"),
    CASE(23, 13, HEAD "#0\n1!\n0#\n1$\n\n"),
    CASE(23, 8, HEAD),
    CASE(23, 10, HEAD "\n\n"),
    CASE(23, 9, HEAD "$dumpvars $end\n"),
    CASE(23, 9, HEAD "#0"),
    CASE(20, 13, HEAD "#0\n1!\n1\"\n0#\n$dumpvars\n"),
};

const size_t dump_case_count = sizeof dump_cases / sizeof dump_cases[0];
