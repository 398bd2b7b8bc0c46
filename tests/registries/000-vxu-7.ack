MSH|^~\&|ReceivingOrg|KS0000|SendingOrg|XX9999|20250113120000+0000||ACK^V04^ACK|7|P|2.5.1|||NE|NE|||||Z23^CDCPHINVS
MSA|AE|3337680
ERR||MSH^1^15^1|101^Required field missing^HL70357|W|6^^L
ERR||MSH^1^16^1|101^Required field missing^HL70357|W|8^^L
ERR||OBX^3^4^1|101^Required field missing^HL70357|W|50^^L
ERR||OBX^4^4^1|101^Required field missing^HL70357|W|50^^L
