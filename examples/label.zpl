^XA
^FX A label of 50 x 25 mm for 8 dots a mm: GTIN and identification number as GS1 DataMatrix, and in words. ^FS
^FX In its bar code _1 is FNC1, since BX names the escape character _, so there is no FH in that field. ^FS
^CI28^PW400^LL200
^FO24,40^BXN,5,200,,,,_,1^FD_1{gs1}^FS
^FO160,44^A0N,22,22^FH^FDGTIN {gtin}^FS
^FO160,80^A0N,22,22^FH^FD{identification}^FS
^FO160,116^A0N,22,22^FH^FD{date}  order {order}^FS
^XZ
