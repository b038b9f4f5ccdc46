"""The letters that the server spells as `@` and two signs in the name of a file, as `CONVERT(.. USING filename)` says
them (ctype-utf8.c). Other characters than A-Z a-z 0-9 _ are `@` and four hexadecimal digits there."""

# Each letter with its two signs.
LETTERS = '''
À0G Á0H Â0I Ã0J Ä0K Å0L Æ0M Ç0N È0O É0P Ê0Q Ë0R Ì0S Í0T Î0U Ï0V Ð0W Ñ0X Ò0Y Ó0Z Ô1G Õ1H Ö1I Ø1K Ù1L Ú1M Û1N Ü1O Ý1P
Þ1Q ß1j à0g á0h â0i ã0j ä0k å0l æ0m ç0n è0o é0p ê0q ë0r ì0s í0t î0u ï0v ð0w ñ0x ò0y ó0z ô1g õ1h ö1i ø1k ù1l ú1m û1n
ü1o ý1p þ1q ÿ1r Ā1S ā1s Ă1T ă1t Ą1U ą1u Ć1V ć1v Ĉ1W ĉ1w Ċ1X ċ1x Č1Y č1y Ď1Z ď1z Đ2G đ2g Ē2H ē2h Ĕ2I ĕ2i Ė2J ė2j Ę2K
ę2k Ě2L ě2l Ĝ2M ĝ2m Ğ2N ğ2n Ġ2O ġ2o Ģ2P ģ2p Ĥ2Q ĥ2q Ħ2R ħ2r Ĩ2S ĩ2s Ī2T ī2t Ĭ2U ĭ2u Į2V į2v ı2w Ĳ2X ĳ2x Ĵ2Y ĵ2y Ķ2Z
ķ2z ĸ3g Ĺ3H ĺ3h Ļ3I ļ3i Ľ3J ľ3j Ŀ3K ŀ3k Ł3L ł3l Ń3M ń3m Ņ3N ņ3n Ň3O ň3o ŉ3p Ŋ3Q ŋ3q Ō3R ō3r Ŏ3S ŏ3s Ő3T ő3t Œ3U œ3u
Ŕ3V ŕ3v Ŗ3W ŗ3w Ř3X ř3x Ś3Y ś3y Ŝ3Z ŝ3z Ş4G ş4g Š4H š4h Ţ4I ţ4i Ť4J ť4j Ŧ4K ŧ4k Ũ4L ũ4l Ū4M ū4m Ŭ4N ŭ4n Ů4O ů4o Ű4P
ű4p Ų4Q ų4q Ŵ4R ŵ4r Ŷ4S ŷ4s Ÿ1R Ź4T ź4t Ż4U ż4u Ž4V ž4v ſ4w ƀga ƁQf ƂHa ƃha ƄIa ƅia ƆRf ƇJa ƈja ƉTf ƊUf ƋKa ƌka ƍla
ƎZb ƏWf ƐYf ƑMa ƒma ƓJg ƔMg ƕna ƖSg ƗRg ƘOa ƙoa ƚpa ƛqa ƜYg ƝHh ƞra ƟKh ƠSa ơsa ƢTa ƣta ƤUa ƥua ƦVh ƧVa ƨva ƩYh ƪwa
ƫxa ƬYa ƭya ƮJi ƯZa ưza ƱLi ƲMi ƳGb ƴgb ƵHb ƶhb ƷTi ƸIb ƹib ƺjb ƻkb ƼNb ƽnb ƾmb ǄOb ǆob ǇPb ǉpb ǊQb ǌqb ǍRb ǎrb ǏSb
ǐsb ǑTb ǒtb ǓUb ǔub ǕVb ǖvb ǗWb ǘwb ǙXb ǚxb ǛYb ǜyb ǝzb ǞGc ǟgc ǠHc ǡhc ǢIc ǣic ǤJc ǥjc ǦKc ǧkc ǨLc ǩlc ǪMc ǫmc ǬNc
ǭnc ǮOc ǯoc ǰpc ǱQc ǳqc ǴRc ǵrc ǶNa ǸSc ǹsc ǺTc ǻtc ǼUc ǽuc ǾVc ǿvc ȀWc ȁwc ȂXc ȃxc ȄYc ȅyc ȆZc ȇzc ȈGd ȉgd ȊHd ȋhd
ȌId ȍid ȎJd ȏjd ȐKd ȑkd ȒLd ȓld ȔMd ȕmd ȖNd ȗnd ȘOd șod ȚPd țpd ȜQd ȝqd ȞRd ȟrd ȠRa ȡsd ȢTd ȣtd ȤUd ȥud ȦVd ȧvd ȨWd
ȩwd ȪXd ȫxd ȬYd ȭyd ȮZd ȯzd ȰGe ȱge ȲHe ȳhe ȴie ȵje ȶke ȷle ȸme ȹne ȺOe ȻPe ȼpe ȽPa ȾQe ȿre ɀse ɁVi ɐnf ɑof ɒpf ɓqf
ɔrf ɕsf ɖtf ɗuf ɘvf əwf ɚxf ɛyf ɜzf ɝgg ɞhg ɟig ɠjg ɡkg ɢlg ɣmg ɤng ɥog ɦpg ɧqg ɨrg ɩsg ɪtg ɫug ɬvg ɭwg ɮxg ɯyg ɰzg
ɱgh ɲhh ɳih ɴjh ɵkh ɶlh ɷmh ɸnh ɹoh ɺph ɻqh ɼrh ɽsh ɾth ɿuh ʀvh ʁwh ʂxh ʃyh ʄzh ʅgi ʆhi ʇii ʈji ʉki ʊli ʋmi ʌni ʍoi
ʎpi ʏqi ʐri ʑsi ʒti ʓui ʔvi ʕwi ʖxi ʗyi ʘzi ʙgj ʚhj ʛij ʜjj ʝkj ʞlj ʟmj ʠnj ʡoj ʢpj ʣqj ʤrj ʥsj ʦtj ʧuj ʨvj ʩwj ʪxj
ʫyj ʬzj ʭgk ʮhk ʯik Ά6G Έ6H Ή6I Ί6J Ό7S Ύ7T Ώ7U ΐ5y Α6L Β7W Γ6N Δ6O Ε6P Ζ6Q Η6R Θ7X Ι6T Κ8W Λ6V Μ6W Ν6X Ξ6Y Ο6Z Π8I
Ρ7H Σ8Y Τ7K Υ7L Φ8H Χ7N Ψ7O Ω7P Ϊ7Q Ϋ7R ά6g έ6h ή6i ί6j ΰ6k α6l β6m γ6n δ6o ε6p ζ6q η6r θ6s ι6t κ6u λ6v μ6w ν6x ξ6y
ο6z π7g ρ7h ς7i σ7j τ7k υ7l φ7m χ7n ψ7o ω7p ϊ7q ϋ7r ό7s ύ7t ώ7u ϐ7w ϑ7x ϒ7Y ϓ7Z ϔ8G ϕ8h ϖ8i ϗ8j ϙ8k Ϛ8L ϛ8l Ϝ8M ϝ8m
Ϟ8N ϟ8n Ϡ8O ϡ8o Ϣ8P ϣ8p Ϥ8Q ϥ8q Ϧ8R ϧ8r Ϩ8S ϩ8s Ϫ8T ϫ8t Ϭ8U ϭ8u Ϯ8V ϯ8v ϰ8w ϱ8x ϲ8y ϳ8z ϵ9g ϶9h ϸ9i ϻ9j ϼ9k Ͻ9L Ͼ9M
Ͽ9N ЀS1 ЁT1 ЂU1 ЃV1 ЄW1 ЅX1 ІY1 ЇZ1 ЈG2 ЉH2 ЊI2 ЋJ2 ЌK2 ЍL2 ЎM2 ЏN2 АG0 БH0 ВI0 ГJ0 ДK0 ЕL0 ЖM0 ЗN0 ИO0 ЙP0 КQ0 ЛR0
МS0 НT0 ОU0 ПV0 РW0 СX0 ТY0 УZ0 ФG1 ХH1 ЦI1 ЧJ1 ШK1 ЩL1 ЪM1 ЫN1 ЬO1 ЭP1 ЮQ1 ЯR1 аg0 бh0 вi0 гj0 дk0 еl0 жm0 зn0 иo0
йp0 кq0 лr0 мs0 нt0 оu0 пv0 рw0 сx0 тy0 уz0 фg1 хh1 цi1 чj1 шk1 щl1 ъm1 ыn1 ьo1 эp1 юq1 яr1 ѐs1 ёt1 ђu1 ѓv1 єw1 ѕx1
іy1 їz1 јg2 љh2 њi2 ћj2 ќk2 ѝl2 ўm2 џn2 ѠO2 ѡo2 ѢP2 ѣp2 ѤQ2 ѥq2 ѦR2 ѧr2 ѨS2 ѩs2 ѪT2 ѫt2 ѬU2 ѭu2 ѮV2 ѯv2 ѰW2 ѱw2 ѲX2
ѳx2 ѴY2 ѵy2 ѶZ2 ѷz2 ѸG3 ѹg3 ѺH3 ѻh3 ѼI3 ѽi3 ѾJ3 ѿj3 ҀK3 ҁk3 ҊM3 ҋm3 ҌN3 ҍn3 ҎO3 ҏo3 ҐP3 ґp3 ҒQ3 ғq3 ҔR3 ҕr3 ҖS3 җs3
ҘT3 ҙt3 ҚU3 қu3 ҜV3 ҝv3 ҞW3 ҟw3 ҠX3 ҡx3 ҢY3 ңy3 ҤZ3 ҥz3 ҦG4 ҧg4 ҨH4 ҩh4 ҪI4 ҫi4 ҬJ4 ҭj4 ҮK4 үk4 ҰL4 ұl4 ҲM4 ҳm4 ҴN4
ҵn4 ҶO4 ҷo4 ҸP4 ҹp4 ҺQ4 һq4 ҼR4 ҽr4 ҾS4 ҿs4 ӀT4 ӁU4 ӂu4 ӃV4 ӄv4 ӅW4 ӆw4 ӇX4 ӈx4 ӉY4 ӊy4 ӋZ4 ӌz4 ӍG5 ӎg5 ӐI5 ӑi5 ӒJ5
ӓj5 ӔK5 ӕk5 ӖL5 ӗl5 ӘM5 әm5 ӚN5 ӛn5 ӜO5 ӝo5 ӞP5 ӟp5 ӠQ5 ӡq5 ӢR5 ӣr5 ӤS5 ӥs5 ӦT5 ӧt5 ӨU5 өu5 ӪV5 ӫv5 ӬW5 ӭw5 ӮX5 ӯx5
ӰY5 ӱy5 ӲZ5 ӳz5 ӴG6 ӵg6 ӶH6 ӷh6 ӸI6 ӹi6 ԀP6 ԁp6 ԂQ6 ԃq6 ԄR6 ԅr6 ԆS6 ԇs6 ԈT6 ԉt6 ԊU6 ԋu6 ԌV6 ԍv6 ԎW6 ԏw6 ԱH7 ԲI7 ԳJ7
ԴK7 ԵL7 ԶM7 ԷN7 ԸO7 ԹP7 ԺQ7 ԻR7 ԼS7 ԽT7 ԾU7 ԿV7 ՀW7 ՁX7 ՂY7 ՃZ7 ՄG8 ՅH8 ՆI8 ՇJ8 ՈK8 ՉL8 ՊM8 ՋN8 ՌO8 ՍP8 ՎQ8 ՏR8 ՐS8
ՑT8 ՒU8 ՓV8 ՔW8 ՕX8 աh7 բi7 գj7 դk7 եl7 զm7 էn7 ըo7 թp7 ժq7 իr7 լs7 խt7 ծu7 կv7 հw7 ձx7 ղy7 ճz7 մg8 յh8 նi8 շj8 ոk8
չl8 պm8 ջn8 ռo8 սp8 վq8 տr8 րs8 ցt8 ւu8 փv8 քw8 օx8 ḀGl ḁgl ḂHl ḃhl ḄIl ḅil ḆJl ḇjl ḈKl ḉkl ḊLl ḋll ḌMl ḍml ḎNl ḏnl
ḐOl ḑol ḒPl ḓpl ḔQl ḕql ḖRl ḗrl ḘSl ḙsl ḚTl ḛtl ḜUl ḝul ḞVl ḟvl ḠWl ḡwl ḢXl ḣxl ḤYl ḥyl ḦZl ḧzl ḨGm ḩgm ḪHm ḫhm ḬIm
ḭim ḮJm ḯjm ḰKm ḱkm ḲLm ḳlm ḴMm ḵmm ḶNm ḷnm ḸOm ḹom ḺPm ḻpm ḼQm ḽqm ḾRm ḿrm ṀSm ṁsm ṂTm ṃtm ṄUm ṅum ṆVm ṇvm ṈWm ṉwm
ṊXm ṋxm ṌYm ṍym ṎZm ṏzm ṐGn ṑgn ṒHn ṓhn ṔIn ṕin ṖJn ṗjn ṘKn ṙkn ṚLn ṛln ṜMn ṝmn ṞNn ṟnn ṠGp ṡon ṢPn ṣpn ṤQn ṥqn ṦRn
ṧrn ṨSn ṩsn ṪTn ṫtn ṬUn ṭun ṮVn ṯvn ṰWn ṱwn ṲXn ṳxn ṴYn ṵyn ṶZn ṷzn ṸGo ṹgo ṺHo ṻho ṼIo ṽio ṾJo ṿjo ẀKo ẁko ẂLo ẃlo
ẄMo ẅmo ẆNo ẇno ẈOo ẉoo ẊPo ẋpo ẌQo ẍqo ẎRo ẏro ẐSo ẑso ẒTo ẓto ẔUo ẕuo ẖvo ẗwo ẘxo ẙyo ẚzo ẛgp ẠLp ạlp ẢMp ảmp ẤNp
ấnp ẦOp ầop ẨPp ẩpp ẪQp ẫqp ẬRp ậrp ẮSp ắsp ẰTp ằtp ẲUp ẳup ẴVp ẵvp ẶWp ặwp ẸXp ẹxp ẺYp ẻyp ẼZp ẽzp ẾGq ếgq ỀHq ềhq
ỂIq ểiq ỄJq ễjq ỆKq ệkq ỈLq ỉlq ỊMq ịmq ỌNq ọnq ỎOq ỏoq ỐPq ốpq ỒQq ồqq ỔRq ổrq ỖSq ỗsq ỘTq ộtq ỚUq ớuq ỜVq ờvq ỞWq
ởwq ỠXq ỡxq ỢYq ợyq ỤZq ụzq ỦGr ủgr ỨHr ứhr ỪIr ừir ỬJr ửjr ỮKr ữkr ỰLr ựlr ỲMr ỳmr ỴNr ỵnr ỶOr ỷor ỸPr ỹpr ἀgs ἁhs
ἂis ἃjs ἄks ἅls ἆms ἇns ἈGs ἉHs ἊIs ἋJs ἌKs ἍLs ἎMs ἏNs ἐos ἑps ἒqs ἓrs ἔss ἕts ἘOs ἙPs ἚQs ἛRs ἜSs ἝTs ἠys ἡzs ἢgt
ἣht ἤit ἥjt ἦkt ἧlt ἨYs ἩZs ἪGt ἫHt ἬIt ἭJt ἮKt ἯLt ἰmt ἱnt ἲot ἳpt ἴqt ἵrt ἶst ἷtt ἸMt ἹNt ἺOt ἻPt ἼQt ἽRt ἾSt ἿTt
ὀut ὁvt ὂwt ὃxt ὄyt ὅzt ὈUt ὉVt ὊWt ὋXt ὌYt ὍZt ὐku ὑlu ὒmu ὓnu ὔou ὕpu ὖqu ὗru ὙLu ὛNu ὝPu ὟRu ὠwu ὡxu ὢyu ὣzu ὤgv
ὥhv ὦiv ὧjv ὨWu ὩXu ὪYu ὫZu ὬGv ὭHv ὮIv ὯJv ὰkv άlv ὲmv έnv ὴov ήpv ὶqv ίrv ὸsv όtv ὺuv ύvv ὼwv ώxv ᾀgw ᾁhw ᾂiw ᾃjw
ᾄkw ᾅlw ᾆmw ᾇnw ᾈGw ᾉHw ᾊIw ᾋJw ᾌKw ᾍLw ᾎMw ᾏNw ᾐow ᾑpw ᾒqw ᾓrw ᾔsw ᾕtw ᾖuw ᾗvw ᾘOw ᾙPw ᾚQw ᾛRw ᾜSw ᾝTw ᾞUw ᾟVw ᾠww
ᾡxw ᾢyw ᾣzw ᾤgx ᾥhx ᾦix ᾧjx ᾨWw ᾩXw ᾪYw ᾫZw ᾬGx ᾭHx ᾮIx ᾯJx ᾰkx ᾱlx ᾲmx ᾳnx ᾴox ᾶqx ᾷrx ᾸKx ᾹLx ᾺKv ΆLv ᾼNx ῂsx ῃtx
ῄux ῆwx ῇxx ῈMv ΈNv ῊOv ΉPv ῌTx ῐyx ῑzx ῒgy ΐhy ῖky ῗly ῘYx ῙZx ῚQv ΊRv ῠny ῡoy ῢpy ΰqy ῤry ῥsy ῦty ῧuy ῨNy ῩOy ῪUv
ΎVv ῬSy ῲxy ῳyy ῶhz ῷiz ῸSv ΌTv ῺWv ΏXv ῼYy ⅠG9 ⅡH9 ⅢI9 ⅣJ9 ⅤK9 ⅥL9 ⅦM9 ⅧN9 ⅨO9 ⅩP9 ⅪQ9 ⅫR9 ⅬS9 ⅭT9 ⅮU9 ⅯV9 ⅰg9 ⅱh9
ⅲi9 ⅳj9 ⅴk9 ⅵl9 ⅶm9 ⅷn9 ⅸo9 ⅹp9 ⅺq9 ⅻr9 ⅼs9 ⅽt9 ⅾu9 ⅿv9 Ⓐ@A Ⓑ@B Ⓒ@C Ⓓ@D Ⓔ@E Ⓕ@F Ⓖ@G Ⓗ@H Ⓘ@I Ⓙ@J Ⓚ@K Ⓛ@L Ⓜ@M Ⓝ@N Ⓞ@O
Ⓟ@P Ⓠ@Q Ⓡ@R Ⓢ@S Ⓣ@T Ⓤ@U Ⓥ@V Ⓦ@W Ⓧ@X Ⓨ@Y Ⓩ@Z ⓐ@a ⓑ@b ⓒ@c ⓓ@d ⓔ@e ⓕ@f ⓖ@g ⓗ@h ⓘ@i ⓙ@j ⓚ@k ⓛ@l ⓜ@m ⓝ@n ⓞ@o ⓟ@p ⓠ@q ⓡ@r
ⓢ@s ⓣ@t ⓤ@u ⓥ@v ⓦ@w ⓧ@x ⓨ@y ⓩ@z ＡA@ ＢB@ ＣC@ ＤD@ ＥE@ ＦF@ ＧG@ ＨH@ ＩI@ ＪJ@ ＫK@ ＬL@ ＭM@ ＮN@ ＯO@ ＰP@ ＱQ@ ＲR@ ＳS@ ＴT@ ＵU@
ＶV@ ＷW@ ＸX@ ＹY@ ＺZ@ ａa@ ｂb@ ｃc@ ｄd@ ｅe@ ｆf@ ｇg@ ｈh@ ｉi@ ｊj@ ｋk@ ｌl@ ｍm@ ｎn@ ｏo@ ｐp@ ｑq@ ｒr@ ｓs@ ｔt@ ｕu@ ｖv@ ｗw@ ｘx@
ｙy@ ｚz@
'''.split()
SIGNS = {word[0]: word[1:] for word in LETTERS}
LETTER_OF = {signs: letter for letter, signs in SIGNS.items()}
