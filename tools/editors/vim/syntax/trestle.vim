" Scripts of trestle. Made by tools/write_syntax of the table of forms: change that.
if exists("b:current_syntax")
    finish
endif
syntax case match
syntax match trestleWrong /^.\+/
syntax match trestleRest /.\+/ contained
highlight default link trestleWrong Error
highlight default link trestleRest Error
syntax match trestleComment /\v^#[ -~]{0,1023}$/
highlight default link trestleComment Comment
syntax match trestleNumber1 /\v %(1|2)$/ contained
highlight default link trestleNumber1 Number
syntax match trestleWord2 /\v^trestle%( )@=/ nextgroup=trestleNumber1,trestleRest
highlight default link trestleWord2 Statement
syntax match trestleChoice3 /\v %(mono|map4|map8)$/ contained
highlight default link trestleChoice3 Type
syntax match trestleNumber4 /\v %([1-9][0-9]{0,2}|10[0-1][0-9]|102[0-3]|1024)%( )@=/ contained nextgroup=trestleChoice3,trestleRest
highlight default link trestleNumber4 Number
syntax match trestleNumber5 /\v %([1-9][0-9]{0,2}|10[0-1][0-9]|102[0-3]|1024)%( )@=/ contained nextgroup=trestleNumber4,trestleRest
highlight default link trestleNumber5 Number
syntax match trestleWord6 /\v^screen%( )@=/ nextgroup=trestleNumber5,trestleRest
highlight default link trestleWord6 Statement
syntax match trestleHex7 /\v [0-9A-Fa-f]{16}$/ contained
highlight default link trestleHex7 Number
syntax match trestleHex8 /\v %([2-6][0-9A-Fa-f]|7[0-9A-Ea-e])%( )@=/ contained nextgroup=trestleHex7,trestleRest
highlight default link trestleHex8 Number
syntax match trestleWord9 /\v^glyph%( )@=/ nextgroup=trestleHex8,trestleRest
highlight default link trestleWord9 Statement
syntax match trestleNumber10 /\v %(0|[1-9][0-9]{0,1}|1[0-9]{2}|2[0-4][0-9]|25[0-4]|255)$/ contained
highlight default link trestleNumber10 Number
syntax match trestleWord11 /\v h%( )@=/ contained nextgroup=trestleNumber10,trestleRest
highlight default link trestleWord11 Statement
syntax match trestleNumber12 /\v %(0|[1-9][0-9]{0,1}|1[0-9]{2}|2[0-4][0-9]|25[0-4]|255)$/ contained
highlight default link trestleNumber12 Number
syntax match trestleWord13 /\v v%( )@=/ contained nextgroup=trestleNumber12,trestleRest
highlight default link trestleWord13 Statement
syntax match trestleNumber14 /\v %(0|[1-9][0-9]{0,1}|1[0-9]{2}|2[0-4][0-9]|25[0-4]|255)$/ contained
highlight default link trestleNumber14 Number
syntax match trestleWord15 /\v z%( )@=/ contained nextgroup=trestleNumber14,trestleRest
highlight default link trestleWord15 Statement
syntax match trestleNumber16 /\v %(0|[1-9][0-9]{0,1}|1[0-9]{2}|2[0-4][0-9]|25[0-4]|255)$/ contained
highlight default link trestleNumber16 Number
syntax match trestleWord17 /\v t%( )@=/ contained nextgroup=trestleNumber16,trestleRest
highlight default link trestleWord17 Statement
syntax match trestleNumber18 /\v %([1-9][0-9]{0,0}|1[0-5]|16)$/ contained
highlight default link trestleNumber18 Number
syntax match trestleNumber19 /\v %(0|[1-9][0-9]{0,1}|1[0-9]{2}|2[0-4][0-9]|25[0-4]|255)%( )@=/ contained nextgroup=trestleNumber18,trestleRest
highlight default link trestleNumber19 Number
syntax match trestleWord20 /\v page%( )@=/ contained nextgroup=trestleNumber19,trestleRest
highlight default link trestleWord20 Statement
syntax match trestleNumber21 /\v %(0|[1-9][0-9]{0,0}|[1-5][0-9]|6[0-3]|64)$/ contained
highlight default link trestleNumber21 Number
syntax match trestleChoice22 /\v %(across|down)%( )@=/ contained nextgroup=trestleNumber21,trestleRest
highlight default link trestleChoice22 Type
syntax match trestleNumber23 /\v %(0|[1-9][0-9]{0,1}|1[0-9]{2}|2[0-4][0-9]|25[0-4]|255)%( )@=/ contained nextgroup=trestleChoice22,trestleRest
highlight default link trestleNumber23 Number
syntax match trestleWord24 /\v pack%( )@=/ contained nextgroup=trestleNumber23,trestleRest
highlight default link trestleWord24 Statement
syntax match trestleNumber25 /\v %(0|[1-9][0-9]{0,1}|1[0-9]{2}|2[0-4][0-9]|25[0-4]|255)$/ contained
highlight default link trestleNumber25 Number
syntax match trestleNumber26 /\v %(0|[1-9][0-9]{0,1}|1[0-9]{2}|2[0-4][0-9]|25[0-4]|255)%( )@=/ contained nextgroup=trestleNumber25,trestleRest
highlight default link trestleNumber26 Number
syntax match trestleWord27 /\v border%( )@=/ contained nextgroup=trestleNumber26,trestleRest
highlight default link trestleWord27 Statement
syntax match trestleNumber28 /\v %(0|[1-9][0-9]{0,2}|[1-3][0-9]{3}|40[0-8][0-9]|409[0-5]|4096)$/ contained
highlight default link trestleNumber28 Number
syntax match trestleNumber29 /\v %(0|[1-9][0-9]{0,2}|[1-3][0-9]{3}|40[0-8][0-9]|409[0-5]|4096)%( )@=/ contained nextgroup=trestleNumber28,trestleRest
highlight default link trestleNumber29 Number
syntax match trestleNumber30 /\v %(0|[1-9][0-9]{0,1}|1[0-9]{2}|2[0-4][0-9]|25[0-4]|255)%( )@=/ contained nextgroup=trestleNumber29,trestleRest
highlight default link trestleNumber30 Number
syntax match trestleWord31 /\v rigid%( )@=/ contained nextgroup=trestleNumber30,trestleRest
highlight default link trestleWord31 Statement
syntax match trestleNumber32 /\v %(0|[1-9][0-9]{0,2}|1[0-9]{3}|20[0-3][0-9]|204[0-7]|2048|-%([1-9][0-9]{0,2}|1[0-9]{3}|20[0-3][0-9]|204[0-7]|2048))$/ contained
highlight default link trestleNumber32 Number
syntax match trestleNumber33 /\v %(0|[1-9][0-9]{0,2}|1[0-9]{3}|20[0-3][0-9]|204[0-7]|2048|-%([1-9][0-9]{0,2}|1[0-9]{3}|20[0-3][0-9]|204[0-7]|2048))%( )@=/ contained nextgroup=trestleNumber32,trestleRest
highlight default link trestleNumber33 Number
syntax match trestleNumber34 /\v %(0|[1-9][0-9]{0,1}|1[0-9]{2}|2[0-4][0-9]|25[0-4]|255)%( )@=/ contained nextgroup=trestleNumber33,trestleRest
highlight default link trestleNumber34 Number
syntax match trestleWord35 /\v translate%( )@=/ contained nextgroup=trestleNumber34,trestleRest
highlight default link trestleWord35 Statement
syntax match trestleNew36 /\v [a-z][a-z0-9_]{0,15}%( )@=/ contained nextgroup=trestleWord11,trestleWord13,trestleWord15,trestleWord17,trestleWord20,trestleWord24,trestleWord27,trestleWord31,trestleWord35,trestleRest
highlight default link trestleNew36 Identifier
syntax match trestleWord37 /\v^node%( )@=/ nextgroup=trestleNew36,trestleRest
highlight default link trestleWord37 Statement
syntax match trestleNumber38 /\v %(0|[1-9][0-9]{0,1}|1[0-9]{2}|2[0-4][0-9]|25[0-4]|255)$/ contained
highlight default link trestleNumber38 Number
syntax match trestleWord39 /\v solid%( )@=/ contained nextgroup=trestleNumber38,trestleRest
highlight default link trestleWord39 Statement
syntax match trestleNumber40 /\v %(0|[1-9][0-9]{0,2}|[1-3][0-9]{3}|40[0-8][0-9]|409[0-5]|4096|-%([1-9][0-9]{0,2}|[1-3][0-9]{3}|40[0-8][0-9]|409[0-5]|4096))$/ contained
highlight default link trestleNumber40 Number
syntax match trestleNumber41 /\v %(0|[1-9][0-9]{0,2}|[1-3][0-9]{3}|40[0-8][0-9]|409[0-5]|4096|-%([1-9][0-9]{0,2}|[1-3][0-9]{3}|40[0-8][0-9]|409[0-5]|4096))%( )@=/ contained nextgroup=trestleNumber40,trestleRest
highlight default link trestleNumber41 Number
syntax match trestleHex42 /\v [0-9A-Fa-f]{16}%( )@=/ contained nextgroup=trestleNumber41,trestleRest
highlight default link trestleHex42 Number
syntax match trestleWord43 /\v board%( )@=/ contained nextgroup=trestleHex42,trestleRest
highlight default link trestleWord43 Statement
syntax match trestleText44 /\v [ -~]{0,80}$/ contained
highlight default link trestleText44 String
syntax match trestleWord45 /\v label%( |$)@=/ contained nextgroup=trestleText44,trestleRest
highlight default link trestleWord45 Statement
syntax match trestleWord46 /\v lines$/ contained
highlight default link trestleWord46 Statement
syntax match trestleWord47 /\v canvas$/ contained
highlight default link trestleWord47 Statement
syntax match trestleNumber48 /\v %([1-9][0-9]{0,0}|[1-2][0-9]|3[0-1]|32)$/ contained
highlight default link trestleNumber48 Number
syntax match trestleWord49 /\v meter%( )@=/ contained nextgroup=trestleNumber48,trestleRest
highlight default link trestleWord49 Statement
syntax match trestleWord50 /\v edit$/ contained
highlight default link trestleWord50 Statement
syntax match trestleNumber51 /\v %(0|[1-9][0-9]{0,2}|[1-3][0-9]{3}|40[0-8][0-9]|409[0-5]|4096)%( )@=/ contained nextgroup=trestleWord39,trestleWord43,trestleWord45,trestleWord46,trestleWord47,trestleWord49,trestleWord50,trestleRest
highlight default link trestleNumber51 Number
syntax match trestleNumber52 /\v %(0|[1-9][0-9]{0,2}|[1-3][0-9]{3}|40[0-8][0-9]|409[0-5]|4096)%( )@=/ contained nextgroup=trestleNumber51,trestleRest
highlight default link trestleNumber52 Number
syntax match trestleNumber53 /\v %(0|[1-9][0-9]{0,2}|[1-3][0-9]{3}|40[0-8][0-9]|409[0-5]|4096)%( )@=/ contained nextgroup=trestleNumber52,trestleRest
highlight default link trestleNumber53 Number
syntax match trestleNumber54 /\v %(0|[1-9][0-9]{0,2}|[1-3][0-9]{3}|40[0-8][0-9]|409[0-5]|4096)%( )@=/ contained nextgroup=trestleNumber53,trestleRest
highlight default link trestleNumber54 Number
syntax match trestleNumber55 /\v %(0|[1-9][0-9]{0,2}|[1-3][0-9]{3}|40[0-8][0-9]|409[0-5]|4096)%( )@=/ contained nextgroup=trestleNumber54,trestleRest
highlight default link trestleNumber55 Number
syntax match trestleNumber56 /\v %(0|[1-9][0-9]{0,2}|[1-3][0-9]{3}|40[0-8][0-9]|409[0-5]|4096)%( )@=/ contained nextgroup=trestleNumber55,trestleRest
highlight default link trestleNumber56 Number
syntax match trestleNew57 /\v [a-z][a-z0-9_]{0,15}%( )@=/ contained nextgroup=trestleNumber56,trestleRest
highlight default link trestleNew57 Identifier
syntax match trestleWord58 /\v^leaf%( )@=/ nextgroup=trestleNew57,trestleRest
highlight default link trestleWord58 Statement
syntax match trestleNumber59 /\v %(0|[1-9][0-9]{0,2}|1[0-9]{3}|20[0-3][0-9]|204[0-7]|2048|-%([1-9][0-9]{0,2}|1[0-9]{3}|20[0-3][0-9]|204[0-7]|2048))$/ contained
highlight default link trestleNumber59 Number
syntax match trestleNumber60 /\v %(0|[1-9][0-9]{0,2}|1[0-9]{3}|20[0-3][0-9]|204[0-7]|2048|-%([1-9][0-9]{0,2}|1[0-9]{3}|20[0-3][0-9]|204[0-7]|2048))%( )@=/ contained nextgroup=trestleNumber59,trestleRest
highlight default link trestleNumber60 Number
syntax match trestleName61 /\v [a-z][a-z0-9_]{0,15}%( |$)@=/ contained nextgroup=trestleNumber60,trestleRest
highlight default link trestleName61 Identifier
syntax match trestleName62 /\v [a-z][a-z0-9_]{0,15}%( )@=/ contained nextgroup=trestleName61,trestleRest
highlight default link trestleName62 Identifier
syntax match trestleWord63 /\v^put%( )@=/ nextgroup=trestleName62,trestleRest
highlight default link trestleWord63 Statement
syntax match trestleName64 /\v [a-z][a-z0-9_]{0,15}$/ contained
highlight default link trestleName64 Identifier
syntax match trestleWord65 /\v^root%( )@=/ nextgroup=trestleName64,trestleRest
highlight default link trestleWord65 Statement
syntax match trestleWord66 /\v^begin$/
highlight default link trestleWord66 Statement
syntax match trestleNumber67 /\v %([1-4]|5)$/ contained
highlight default link trestleNumber67 Number
syntax match trestleChoice68 /\v %(down|up)%( )@=/ contained nextgroup=trestleNumber67,trestleRest
highlight default link trestleChoice68 Type
syntax match trestleNumber69 /\v %([1-9][0-9]{0,8}|[1-3][0-9]{9}|4[0-1][0-9]{8}|42[0-8][0-9]{7}|429[0-3][0-9]{6}|4294[0-8][0-9]{5}|42949[0-5][0-9]{4}|429496[0-6][0-9]{3}|4294967[0-1][0-9]{2}|42949672[0-8][0-9]|429496729[0-4]|4294967295)%( )@=/ contained nextgroup=trestleChoice68,trestleRest
highlight default link trestleNumber69 Number
syntax match trestleWord70 /\v^mouse%( )@=/ nextgroup=trestleNumber69,trestleRest
highlight default link trestleWord70 Statement
syntax match trestleNumber71 /\v %(0|[1-9][0-9]{0,2}|[1-7][0-9]{3}|80[0-9]{2}|81[0-8][0-9]|8190|8191|-%([1-9][0-9]{0,2}|[1-7][0-9]{3}|80[0-9]{2}|81[0-8][0-9]|819[0-1]|8192))$/ contained
highlight default link trestleNumber71 Number
syntax match trestleNumber72 /\v %(0|[1-9][0-9]{0,2}|[1-7][0-9]{3}|80[0-9]{2}|81[0-8][0-9]|8190|8191|-%([1-9][0-9]{0,2}|[1-7][0-9]{3}|80[0-9]{2}|81[0-8][0-9]|819[0-1]|8192))%( )@=/ contained nextgroup=trestleNumber71,trestleRest
highlight default link trestleNumber72 Number
syntax match trestleNumber73 /\v %([1-9][0-9]{0,8}|[1-3][0-9]{9}|4[0-1][0-9]{8}|42[0-8][0-9]{7}|429[0-3][0-9]{6}|4294[0-8][0-9]{5}|42949[0-5][0-9]{4}|429496[0-6][0-9]{3}|4294967[0-1][0-9]{2}|42949672[0-8][0-9]|429496729[0-4]|4294967295)%( )@=/ contained nextgroup=trestleNumber72,trestleRest
highlight default link trestleNumber73 Number
syntax match trestleWord74 /\v^motion%( )@=/ nextgroup=trestleNumber73,trestleRest
highlight default link trestleWord74 Statement
syntax match trestleNumber75 /\v %(0|[1-9][0-9]{0,1}|1[0-9]{2}|2[0-4][0-9]|25[0-4]|255)$/ contained
highlight default link trestleNumber75 Number
syntax match trestleNumber76 /\v %([1-9][0-9]{0,8}|[1-3][0-9]{9}|4[0-1][0-9]{8}|42[0-8][0-9]{7}|429[0-3][0-9]{6}|4294[0-8][0-9]{5}|42949[0-5][0-9]{4}|429496[0-6][0-9]{3}|4294967[0-1][0-9]{2}|42949672[0-8][0-9]|429496729[0-4]|4294967295)%( )@=/ contained nextgroup=trestleNumber75,trestleRest
highlight default link trestleNumber76 Number
syntax match trestleWord77 /\v^key%( )@=/ nextgroup=trestleNumber76,trestleRest
highlight default link trestleWord77 Statement
syntax match trestleNumber78 /\v %(0|[1-9][0-9]{0,2}|1[0-9]{3}|20[0-3][0-9]|204[0-7]|2048|-%([1-9][0-9]{0,2}|1[0-9]{3}|20[0-3][0-9]|204[0-7]|2048))$/ contained
highlight default link trestleNumber78 Number
syntax match trestleNumber79 /\v %(0|[1-9][0-9]{0,2}|1[0-9]{3}|20[0-3][0-9]|204[0-7]|2048|-%([1-9][0-9]{0,2}|1[0-9]{3}|20[0-3][0-9]|204[0-7]|2048))%( )@=/ contained nextgroup=trestleNumber78,trestleRest
highlight default link trestleNumber79 Number
syntax match trestleName80 /\v [a-z][a-z0-9_]{0,15}%( |$)@=/ contained nextgroup=trestleNumber79,trestleRest
highlight default link trestleName80 Identifier
syntax match trestleName81 /\v [a-z][a-z0-9_]{0,15}%( )@=/ contained nextgroup=trestleName80,trestleRest
highlight default link trestleName81 Identifier
syntax match trestleWord82 /\v^attach%( )@=/ nextgroup=trestleName81,trestleRest
highlight default link trestleWord82 Statement
syntax match trestleName83 /\v [a-z][a-z0-9_]{0,15}$/ contained
highlight default link trestleName83 Identifier
syntax match trestleWord84 /\v^detach%( )@=/ nextgroup=trestleName83,trestleRest
highlight default link trestleWord84 Statement
syntax match trestleNumber85 /\v %(0|[1-9][0-9]{0,1}|1[0-9]{2}|2[0-4][0-9]|25[0-4]|255)$/ contained
highlight default link trestleNumber85 Number
syntax match trestleName86 /\v [a-z][a-z0-9_]{0,15}%( )@=/ contained nextgroup=trestleNumber85,trestleRest
highlight default link trestleName86 Identifier
syntax match trestleWord87 /\v^tint%( )@=/ nextgroup=trestleName86,trestleRest
highlight default link trestleWord87 Statement
syntax match trestleNumber88 /\v %(0|[1-9][0-9]{0,1}|1[0-9]{2}|2[0-4][0-9]|25[0-4]|255)$/ contained
highlight default link trestleNumber88 Number
syntax match trestleName89 /\v [a-z][a-z0-9_]{0,15}%( )@=/ contained nextgroup=trestleNumber88,trestleRest
highlight default link trestleName89 Identifier
syntax match trestleWord90 /\v^border%( )@=/ nextgroup=trestleName89,trestleRest
highlight default link trestleWord90 Statement
syntax match trestleNumber91 /\v %(0|[1-9][0-9]{0,2}|1[0-9]{3}|20[0-3][0-9]|204[0-7]|2048|-%([1-9][0-9]{0,2}|1[0-9]{3}|20[0-3][0-9]|204[0-7]|2048))$/ contained
highlight default link trestleNumber91 Number
syntax match trestleNumber92 /\v %(0|[1-9][0-9]{0,2}|1[0-9]{3}|20[0-3][0-9]|204[0-7]|2048|-%([1-9][0-9]{0,2}|1[0-9]{3}|20[0-3][0-9]|204[0-7]|2048))%( )@=/ contained nextgroup=trestleNumber91,trestleRest
highlight default link trestleNumber92 Number
syntax match trestleName93 /\v [a-z][a-z0-9_]{0,15}%( )@=/ contained nextgroup=trestleNumber92,trestleRest
highlight default link trestleName93 Identifier
syntax match trestleWord94 /\v^offset%( )@=/ nextgroup=trestleName93,trestleRest
highlight default link trestleWord94 Statement
syntax match trestleNumber95 /\v %(0|[1-9][0-9]{0,2}|[1-3][0-9]{3}|40[0-8][0-9]|409[0-5]|4096)$/ contained
highlight default link trestleNumber95 Number
syntax match trestleNumber96 /\v %(0|[1-9][0-9]{0,2}|[1-3][0-9]{3}|40[0-8][0-9]|409[0-5]|4096)%( )@=/ contained nextgroup=trestleNumber95,trestleRest
highlight default link trestleNumber96 Number
syntax match trestleName97 /\v [a-z][a-z0-9_]{0,15}%( )@=/ contained nextgroup=trestleNumber96,trestleRest
highlight default link trestleName97 Identifier
syntax match trestleWord98 /\v^fix%( )@=/ nextgroup=trestleName97,trestleRest
highlight default link trestleWord98 Statement
syntax match trestleNumber99 /\v %(0|[1-9][0-9]{0,2}|1[0-9]{3}|20[0-3][0-9]|204[0-7]|2048|-%([1-9][0-9]{0,2}|1[0-9]{3}|20[0-3][0-9]|204[0-7]|2048))$/ contained
highlight default link trestleNumber99 Number
syntax match trestleNumber100 /\v %(0|[1-9][0-9]{0,2}|1[0-9]{3}|20[0-3][0-9]|204[0-7]|2048|-%([1-9][0-9]{0,2}|1[0-9]{3}|20[0-3][0-9]|204[0-7]|2048))%( )@=/ contained nextgroup=trestleNumber99,trestleRest
highlight default link trestleNumber100 Number
syntax match trestleName101 /\v [a-z][a-z0-9_]{0,15}%( )@=/ contained nextgroup=trestleNumber100,trestleRest
highlight default link trestleName101 Identifier
syntax match trestleWord102 /\v^move%( )@=/ nextgroup=trestleName101,trestleRest
highlight default link trestleWord102 Statement
syntax match trestleName103 /\v [a-z][a-z0-9_]{0,15}$/ contained
highlight default link trestleName103 Identifier
syntax match trestleWord104 /\v^lift%( )@=/ nextgroup=trestleName103,trestleRest
highlight default link trestleWord104 Statement
syntax match trestleName105 /\v [a-z][a-z0-9_]{0,15}$/ contained
highlight default link trestleName105 Identifier
syntax match trestleName106 /\v [a-z][a-z0-9_]{0,15}%( )@=/ contained nextgroup=trestleName105,trestleRest
highlight default link trestleName106 Identifier
syntax match trestleWord107 /\v^show%( )@=/ nextgroup=trestleName106,trestleRest
highlight default link trestleWord107 Statement
syntax match trestleNumber108 /\v %(0|[1-9][0-9]{0,1}|1[0-9]{2}|2[0-4][0-9]|25[0-4]|255)$/ contained
highlight default link trestleNumber108 Number
syntax match trestleName109 /\v [a-z][a-z0-9_]{0,15}%( )@=/ contained nextgroup=trestleNumber108,trestleRest
highlight default link trestleName109 Identifier
syntax match trestleWord110 /\v^turn%( )@=/ nextgroup=trestleName109,trestleRest
highlight default link trestleWord110 Statement
syntax match trestleNumber111 /\v %(0|[1-9][0-9]{0,2}|[1-3][0-9]{3}|40[0-8][0-9]|409[0-5]|4096)$/ contained
highlight default link trestleNumber111 Number
syntax match trestleNumber112 /\v %(0|[1-9][0-9]{0,2}|[1-3][0-9]{3}|40[0-8][0-9]|409[0-5]|4096)%( )@=/ contained nextgroup=trestleNumber111,trestleRest
highlight default link trestleNumber112 Number
syntax match trestleNumber113 /\v %(0|[1-9][0-9]{0,2}|[1-3][0-9]{3}|40[0-8][0-9]|409[0-5]|4096)%( )@=/ contained nextgroup=trestleNumber112,trestleRest
highlight default link trestleNumber113 Number
syntax match trestleNumber114 /\v %(0|[1-9][0-9]{0,2}|[1-3][0-9]{3}|40[0-8][0-9]|409[0-5]|4096)%( )@=/ contained nextgroup=trestleNumber113,trestleRest
highlight default link trestleNumber114 Number
syntax match trestleNumber115 /\v %(0|[1-9][0-9]{0,2}|[1-3][0-9]{3}|40[0-8][0-9]|409[0-5]|4096)%( )@=/ contained nextgroup=trestleNumber114,trestleRest
highlight default link trestleNumber115 Number
syntax match trestleNumber116 /\v %(0|[1-9][0-9]{0,2}|[1-3][0-9]{3}|40[0-8][0-9]|409[0-5]|4096)%( )@=/ contained nextgroup=trestleNumber115,trestleRest
highlight default link trestleNumber116 Number
syntax match trestleName117 /\v [a-z][a-z0-9_]{0,15}%( )@=/ contained nextgroup=trestleNumber116,trestleRest
highlight default link trestleName117 Identifier
syntax match trestleWord118 /\v^shapes%( )@=/ nextgroup=trestleName117,trestleRest
highlight default link trestleWord118 Statement
syntax match trestleNumber119 /\v %([1-9][0-9]{0,2}|10[0-1][0-9]|102[0-3]|1024)$/ contained
highlight default link trestleNumber119 Number
syntax match trestleNumber120 /\v %([1-9][0-9]{0,2}|10[0-1][0-9]|102[0-3]|1024)%( )@=/ contained nextgroup=trestleNumber119,trestleRest
highlight default link trestleNumber120 Number
syntax match trestleWord121 /\v^resize%( )@=/ nextgroup=trestleNumber120,trestleRest
highlight default link trestleWord121 Statement
syntax match trestleChoice122 /\v %(mono|map4|map8)$/ contained
highlight default link trestleChoice122 Type
syntax match trestleWord123 /\v^rescreen%( )@=/ nextgroup=trestleChoice122,trestleRest
highlight default link trestleWord123 Statement
syntax match trestleNumber124 /\v %(0|[1-9][0-9]{0,1}|1[0-9]{2}|2[0-4][0-9]|25[0-4]|255)$/ contained
highlight default link trestleNumber124 Number
syntax match trestleWord125 /\v tint%( )@=/ contained nextgroup=trestleNumber124,trestleRest
highlight default link trestleWord125 Statement
syntax match trestleHex126 /\v [0-9A-Fa-f]{16}$/ contained
highlight default link trestleHex126 Number
syntax match trestleWord127 /\v tile%( )@=/ contained nextgroup=trestleHex126,trestleRest
highlight default link trestleWord127 Statement
syntax match trestleNumber128 /\v %(0|[1-9][0-9]{0,2}|[1-3][0-9]{3}|40[0-8][0-9]|409[0-5]|4096|-%([1-9][0-9]{0,2}|[1-3][0-9]{3}|40[0-8][0-9]|409[0-5]|4096))$/ contained
highlight default link trestleNumber128 Number
syntax match trestleNumber129 /\v %(0|[1-9][0-9]{0,2}|[1-3][0-9]{3}|40[0-8][0-9]|409[0-5]|4096|-%([1-9][0-9]{0,2}|[1-3][0-9]{3}|40[0-8][0-9]|409[0-5]|4096))%( )@=/ contained nextgroup=trestleNumber128,trestleRest
highlight default link trestleNumber129 Number
syntax match trestleWord130 /\v shift%( )@=/ contained nextgroup=trestleNumber129,trestleRest
highlight default link trestleWord130 Statement
syntax match trestleText131 /\v [ -~]{0,80}$/ contained
highlight default link trestleText131 String
syntax match trestleWord132 /\v text%( |$)@=/ contained nextgroup=trestleText131,trestleRest
highlight default link trestleWord132 Statement
syntax match trestleText133 /\v [ -~]{0,80}$/ contained
highlight default link trestleText133 String
syntax match trestleWord134 /\v line%( |$)@=/ contained nextgroup=trestleText133,trestleRest
highlight default link trestleWord134 Statement
syntax match trestleWord135 /\v clear$/ contained
highlight default link trestleWord135 Statement
syntax match trestleNumber136 /\v %(0|[1-9][0-9]{0,1}|1[0-9]{2}|2[0-4][0-9]|25[0-4]|255)$/ contained
highlight default link trestleNumber136 Number
syntax match trestleNumber137 /\v %(0|[1-9][0-9]{0,2}|[1-7][0-9]{3}|80[0-9]{2}|81[0-8][0-9]|819[0-1]|8192|-%([1-9][0-9]{0,2}|[1-7][0-9]{3}|80[0-9]{2}|81[0-8][0-9]|819[0-1]|8192))%( )@=/ contained nextgroup=trestleNumber136,trestleRest
highlight default link trestleNumber137 Number
syntax match trestleNumber138 /\v %(0|[1-9][0-9]{0,2}|[1-7][0-9]{3}|80[0-9]{2}|81[0-8][0-9]|819[0-1]|8192|-%([1-9][0-9]{0,2}|[1-7][0-9]{3}|80[0-9]{2}|81[0-8][0-9]|819[0-1]|8192))%( )@=/ contained nextgroup=trestleNumber137,trestleRest
highlight default link trestleNumber138 Number
syntax match trestleNumber139 /\v %(0|[1-9][0-9]{0,2}|[1-7][0-9]{3}|80[0-9]{2}|81[0-8][0-9]|819[0-1]|8192|-%([1-9][0-9]{0,2}|[1-7][0-9]{3}|80[0-9]{2}|81[0-8][0-9]|819[0-1]|8192))%( )@=/ contained nextgroup=trestleNumber138,trestleRest
highlight default link trestleNumber139 Number
syntax match trestleNumber140 /\v %(0|[1-9][0-9]{0,2}|[1-7][0-9]{3}|80[0-9]{2}|81[0-8][0-9]|819[0-1]|8192|-%([1-9][0-9]{0,2}|[1-7][0-9]{3}|80[0-9]{2}|81[0-8][0-9]|819[0-1]|8192))%( )@=/ contained nextgroup=trestleNumber139,trestleRest
highlight default link trestleNumber140 Number
syntax match trestleWord141 /\v rect%( )@=/ contained nextgroup=trestleNumber140,trestleRest
highlight default link trestleWord141 Statement
syntax match trestleNumber142 /\v %(0|[1-9][0-9]{0,2}|[1-7][0-9]{3}|80[0-9]{2}|81[0-8][0-9]|819[0-1]|8192|-%([1-9][0-9]{0,2}|[1-7][0-9]{3}|80[0-9]{2}|81[0-8][0-9]|819[0-1]|8192))$/ contained
highlight default link trestleNumber142 Number
syntax match trestleNumber143 /\v %(0|[1-9][0-9]{0,2}|[1-7][0-9]{3}|80[0-9]{2}|81[0-8][0-9]|819[0-1]|8192|-%([1-9][0-9]{0,2}|[1-7][0-9]{3}|80[0-9]{2}|81[0-8][0-9]|819[0-1]|8192))%( )@=/ contained nextgroup=trestleNumber142,trestleRest
highlight default link trestleNumber143 Number
syntax match trestleNumber144 /\v %(0|[1-9][0-9]{0,2}|[1-7][0-9]{3}|80[0-9]{2}|81[0-8][0-9]|819[0-1]|8192|-%([1-9][0-9]{0,2}|[1-7][0-9]{3}|80[0-9]{2}|81[0-8][0-9]|819[0-1]|8192))%( )@=/ contained nextgroup=trestleNumber143,trestleRest
highlight default link trestleNumber144 Number
syntax match trestleNumber145 /\v %(0|[1-9][0-9]{0,2}|[1-7][0-9]{3}|80[0-9]{2}|81[0-8][0-9]|819[0-1]|8192|-%([1-9][0-9]{0,2}|[1-7][0-9]{3}|80[0-9]{2}|81[0-8][0-9]|819[0-1]|8192))%( )@=/ contained nextgroup=trestleNumber144,trestleRest
highlight default link trestleNumber145 Number
syntax match trestleWord146 /\v swap%( )@=/ contained nextgroup=trestleNumber145,trestleRest
highlight default link trestleWord146 Statement
syntax match trestleNumber147 /\v %(0|[1-9][0-9]{0,1}|1[0-9]{2}|2[0-4][0-9]|25[0-4]|255)$/ contained
highlight default link trestleNumber147 Number
syntax match trestleNumber148 /\v %(0|[1-9][0-9]{0,1}|1[0-9]{2}|2[0-4][0-9]|25[0-4]|255)%( )@=/ contained nextgroup=trestleNumber147,trestleRest
highlight default link trestleNumber148 Number
syntax match trestleNumber149 /\v %(0|[1-9][0-9]{0,2}|[1-7][0-9]{3}|80[0-9]{2}|81[0-8][0-9]|819[0-1]|8192|-%([1-9][0-9]{0,2}|[1-7][0-9]{3}|80[0-9]{2}|81[0-8][0-9]|819[0-1]|8192))%( )@=/ contained nextgroup=trestleNumber148,trestleRest
highlight default link trestleNumber149 Number
syntax match trestleNumber150 /\v %(0|[1-9][0-9]{0,2}|[1-7][0-9]{3}|80[0-9]{2}|81[0-8][0-9]|819[0-1]|8192|-%([1-9][0-9]{0,2}|[1-7][0-9]{3}|80[0-9]{2}|81[0-8][0-9]|819[0-1]|8192))%( )@=/ contained nextgroup=trestleNumber149,trestleRest
highlight default link trestleNumber150 Number
syntax match trestleNumber151 /\v %(0|[1-9][0-9]{0,2}|[1-7][0-9]{3}|80[0-9]{2}|81[0-8][0-9]|819[0-1]|8192|-%([1-9][0-9]{0,2}|[1-7][0-9]{3}|80[0-9]{2}|81[0-8][0-9]|819[0-1]|8192))%( )@=/ contained nextgroup=trestleNumber150,trestleRest
highlight default link trestleNumber151 Number
syntax match trestleNumber152 /\v %(0|[1-9][0-9]{0,2}|[1-7][0-9]{3}|80[0-9]{2}|81[0-8][0-9]|819[0-1]|8192|-%([1-9][0-9]{0,2}|[1-7][0-9]{3}|80[0-9]{2}|81[0-8][0-9]|819[0-1]|8192))%( )@=/ contained nextgroup=trestleNumber151,trestleRest
highlight default link trestleNumber152 Number
syntax match trestleWord153 /\v exchange%( )@=/ contained nextgroup=trestleNumber152,trestleRest
highlight default link trestleWord153 Statement
syntax match trestleWord154 /\v undo$/ contained
highlight default link trestleWord154 Statement
syntax match trestleNumber155 /\v %(0|[1-9][0-9]{0,1}|1[0-9]{2}|2[0-4][0-9]|25[0-4]|255)$/ contained
highlight default link trestleNumber155 Number
syntax match trestleNumber156 /\v %(0|[1-9][0-9]{0,0}|[1-2][0-9]|30|31)%( )@=/ contained nextgroup=trestleNumber155,trestleRest
highlight default link trestleNumber156 Number
syntax match trestleWord157 /\v bar%( )@=/ contained nextgroup=trestleNumber156,trestleRest
highlight default link trestleWord157 Statement
syntax match trestleText158 /\v [ -~]{0,80}$/ contained
highlight default link trestleText158 String
syntax match trestleWord159 /\v insert%( |$)@=/ contained nextgroup=trestleText158,trestleRest
highlight default link trestleWord159 Statement
syntax match trestleWord160 /\v erase$/ contained
highlight default link trestleWord160 Statement
syntax match trestleWord161 /\v split$/ contained
highlight default link trestleWord161 Statement
syntax match trestleNumber162 /\v %(0|[1-9][0-9]{0,0}|[1-7][0-9]|80)$/ contained
highlight default link trestleNumber162 Number
syntax match trestleNumber163 /\v %(0|[1-9][0-9]{0,1}|1[0-8][0-9]|19[0-8]|199)%( )@=/ contained nextgroup=trestleNumber162,trestleRest
highlight default link trestleNumber163 Number
syntax match trestleWord164 /\v goto%( )@=/ contained nextgroup=trestleNumber163,trestleRest
highlight default link trestleWord164 Statement
syntax match trestleNumber165 /\v %(0|[1-9][0-9]{0,0}|[1-7][0-9]|80)$/ contained
highlight default link trestleNumber165 Number
syntax match trestleNumber166 /\v %(0|[1-9][0-9]{0,0}|[1-7][0-9]|80)%( )@=/ contained nextgroup=trestleNumber165,trestleRest
highlight default link trestleNumber166 Number
syntax match trestleWord167 /\v copy%( )@=/ contained nextgroup=trestleNumber166,trestleRest
highlight default link trestleWord167 Statement
syntax match trestleWord168 /\v paste$/ contained
highlight default link trestleWord168 Statement
syntax match trestleNumber169 /\v %(0|[1-9][0-9]{0,2}|[1-7][0-9]{3}|80[0-9]{2}|81[0-8][0-9]|819[0-1]|8192|-%([1-9][0-9]{0,2}|[1-7][0-9]{3}|80[0-9]{2}|81[0-8][0-9]|819[0-1]|8192))$/ contained
highlight default link trestleNumber169 Number
syntax match trestleNumber170 /\v %(0|[1-9][0-9]{0,2}|[1-7][0-9]{3}|80[0-9]{2}|81[0-8][0-9]|819[0-1]|8192|-%([1-9][0-9]{0,2}|[1-7][0-9]{3}|80[0-9]{2}|81[0-8][0-9]|819[0-1]|8192))%( )@=/ contained nextgroup=trestleNumber169,trestleRest
highlight default link trestleNumber170 Number
syntax match trestleNumber171 /\v %(0|[1-9][0-9]{0,2}|[1-7][0-9]{3}|80[0-9]{2}|81[0-8][0-9]|819[0-1]|8192|-%([1-9][0-9]{0,2}|[1-7][0-9]{3}|80[0-9]{2}|81[0-8][0-9]|819[0-1]|8192))%( )@=/ contained nextgroup=trestleNumber170,trestleRest
highlight default link trestleNumber171 Number
syntax match trestleNumber172 /\v %(0|[1-9][0-9]{0,2}|[1-7][0-9]{3}|80[0-9]{2}|81[0-8][0-9]|819[0-1]|8192|-%([1-9][0-9]{0,2}|[1-7][0-9]{3}|80[0-9]{2}|81[0-8][0-9]|819[0-1]|8192))%( )@=/ contained nextgroup=trestleNumber171,trestleRest
highlight default link trestleNumber172 Number
syntax match trestleWord173 /\v mark%( )@=/ contained nextgroup=trestleNumber172,trestleRest
highlight default link trestleWord173 Statement
syntax match trestleWord174 /\v flush$/ contained
highlight default link trestleWord174 Statement
syntax match trestleWord175 /\v force$/ contained
highlight default link trestleWord175 Statement
syntax match trestleWord176 /\v take$/ contained
highlight default link trestleWord176 Statement
syntax match trestleChoice177 /\v %(here|gone|both)$/ contained
highlight default link trestleChoice177 Type
syntax match trestleNumber178 /\v %(0|[1-9][0-9]{0,2}|[1-7][0-9]{3}|80[0-9]{2}|81[0-8][0-9]|819[0-1]|8192|-%([1-9][0-9]{0,2}|[1-7][0-9]{3}|80[0-9]{2}|81[0-8][0-9]|819[0-1]|8192))%( )@=/ contained nextgroup=trestleChoice177,trestleRest
highlight default link trestleNumber178 Number
syntax match trestleNumber179 /\v %(0|[1-9][0-9]{0,2}|[1-7][0-9]{3}|80[0-9]{2}|81[0-8][0-9]|819[0-1]|8192|-%([1-9][0-9]{0,2}|[1-7][0-9]{3}|80[0-9]{2}|81[0-8][0-9]|819[0-1]|8192))%( )@=/ contained nextgroup=trestleNumber178,trestleRest
highlight default link trestleNumber179 Number
syntax match trestleNumber180 /\v %(0|[1-9][0-9]{0,2}|[1-7][0-9]{3}|80[0-9]{2}|81[0-8][0-9]|819[0-1]|8192|-%([1-9][0-9]{0,2}|[1-7][0-9]{3}|80[0-9]{2}|81[0-8][0-9]|819[0-1]|8192))%( )@=/ contained nextgroup=trestleNumber179,trestleRest
highlight default link trestleNumber180 Number
syntax match trestleNumber181 /\v %(0|[1-9][0-9]{0,2}|[1-7][0-9]{3}|80[0-9]{2}|81[0-8][0-9]|819[0-1]|8192|-%([1-9][0-9]{0,2}|[1-7][0-9]{3}|80[0-9]{2}|81[0-8][0-9]|819[0-1]|8192))%( )@=/ contained nextgroup=trestleNumber180,trestleRest
highlight default link trestleNumber181 Number
syntax match trestleWord182 /\v cage%( )@=/ contained nextgroup=trestleNumber181,trestleRest
highlight default link trestleWord182 Statement
syntax match trestleWord183 /\v free$/ contained
highlight default link trestleWord183 Statement
syntax match trestleNumber184 /\v %([1-9][0-9]{0,8}|[1-3][0-9]{9}|4[0-1][0-9]{8}|42[0-8][0-9]{7}|429[0-3][0-9]{6}|4294[0-8][0-9]{5}|42949[0-5][0-9]{4}|429496[0-6][0-9]{3}|4294967[0-1][0-9]{2}|42949672[0-8][0-9]|429496729[0-4]|4294967295)$/ contained
highlight default link trestleNumber184 Number
syntax match trestleChoice185 /\v %(key|source|target)%( )@=/ contained nextgroup=trestleNumber184,trestleRest
highlight default link trestleChoice185 Type
syntax match trestleWord186 /\v own%( )@=/ contained nextgroup=trestleChoice185,trestleRest
highlight default link trestleWord186 Statement
syntax match trestleChoice187 /\v %(key|source|target)$/ contained
highlight default link trestleChoice187 Type
syntax match trestleWord188 /\v disown%( )@=/ contained nextgroup=trestleChoice187,trestleRest
highlight default link trestleWord188 Statement
syntax match trestleChoice189 /\v %(key|source|target)$/ contained
highlight default link trestleChoice189 Type
syntax match trestleWord190 /\v read%( )@=/ contained nextgroup=trestleChoice189,trestleRest
highlight default link trestleWord190 Statement
syntax match trestleName191 /\v^[@][a-z][a-z0-9_]{0,15}%( )@=/ nextgroup=trestleWord125,trestleWord127,trestleWord130,trestleWord132,trestleWord134,trestleWord135,trestleWord141,trestleWord146,trestleWord153,trestleWord154,trestleWord157,trestleWord159,trestleWord160,trestleWord161,trestleWord164,trestleWord167,trestleWord168,trestleWord173,trestleWord174,trestleWord175,trestleWord176,trestleWord182,trestleWord183,trestleWord186,trestleWord188,trestleWord190,trestleRest
highlight default link trestleName191 Identifier
syntax match trestleWord192 /\v^sync$/
highlight default link trestleWord192 Statement
syntax match trestleWord193 /\v^dump$/
highlight default link trestleWord193 Statement
syntax match trestleWord194 /\v^peek$/
highlight default link trestleWord194 Statement
syntax match trestleNumber195 /\v %(0|[1-9][0-9]{0,2}|[1-7][0-9]{3}|80[0-9]{2}|81[0-8][0-9]|8190|8191|-%([1-9][0-9]{0,2}|[1-7][0-9]{3}|80[0-9]{2}|81[0-8][0-9]|819[0-1]|8192))$/ contained
highlight default link trestleNumber195 Number
syntax match trestleNumber196 /\v %(0|[1-9][0-9]{0,2}|[1-7][0-9]{3}|80[0-9]{2}|81[0-8][0-9]|8190|8191|-%([1-9][0-9]{0,2}|[1-7][0-9]{3}|80[0-9]{2}|81[0-8][0-9]|819[0-1]|8192))%( )@=/ contained nextgroup=trestleNumber195,trestleRest
highlight default link trestleNumber196 Number
syntax match trestleWord197 /\v^where%( )@=/ nextgroup=trestleNumber196,trestleRest
highlight default link trestleWord197 Statement
syntax match trestleName198 /\v [a-z][a-z0-9_]{0,15}$/ contained
highlight default link trestleName198 Identifier
syntax match trestleWord199 /\v^inbox%( )@=/ nextgroup=trestleName198,trestleRest
highlight default link trestleWord199 Statement
syntax match trestleWord200 /\v^journal$/
highlight default link trestleWord200 Statement
syntax match trestleWord201 /\v^end$/
highlight default link trestleWord201 Statement
let b:current_syntax = "trestle"
