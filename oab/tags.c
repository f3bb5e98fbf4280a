/* Tags: the names that MS-OXOAB's tables 2.9.2.1 (header record), 2.9.2.2 and 2.9.2.2.1 (address records) give them,
 * less PidTag, and the manager's, which only 2.6 names; and tags read from words. */
#include "tags.h"
#include "spelling.h"
#include <string.h>
#include <strings.h>

static const struct {
    uint32_t tag;
    const char *name;
} named[] = {
    { 0x6800001f, "OfflineAddressBookName" },
    { 0x6804001e, "OfflineAddressBookDistinguishedName" },
    { 0x68010003, "OfflineAddressBookSequence" },
    { 0x6802001e, "OfflineAddressBookContainerGuid" },
    { 0x8c98001e, "AddressBookHierarchicalRootDepartment" },
    { 0x3003001e, "EmailAddress" },
    { 0x39fe001f, "SmtpAddress" },
    { 0x3001001f, "DisplayName" },
    { 0x8c92001f, "AddressBookPhoneticDisplayName" },
    { 0x3a00001f, "Account" },
    { 0x3a11001f, "Surname" },
    { 0x8c8f001f, "AddressBookPhoneticSurname" },
    { 0x3a06001f, "GivenName" },
    { 0x8c8e001f, "AddressBookPhoneticGivenName" },
    { 0x800f101f, "AddressBookProxyAddresses" },
    { 0x3a19001f, "OfficeLocation" },
    { 0x39000003, "DisplayType" },
    { 0x0ffe0003, "ObjectType" },
    { 0x3a40000b, "SendRichInfo" },
    { 0x3a08001f, "BusinessTelephoneNumber" },
    { 0x3a0a001f, "Initials" },
    { 0x3a29001f, "StreetAddress" },
    { 0x3a27001f, "Locality" },
    { 0x3a28001f, "StateOrProvince" },
    { 0x3a2a001f, "PostalCode" },
    { 0x3a26001f, "Country" },
    { 0x3a17001f, "Title" },
    { 0x3a16001f, "CompanyName" },
    { 0x8c91001f, "AddressBookPhoneticCompanyName" },
    { 0x3a30001f, "Assistant" },
    { 0x3a18001f, "DepartmentName" },
    { 0x8c90001f, "AddressBookPhoneticDepartmentName" },
    { 0x8011001f, "AddressBookTargetAddress" },
    { 0x3a09001f, "HomeTelephoneNumber" },
    { 0x3a1b101f, "Business2TelephoneNumbers" },
    { 0x3a2f101f, "Home2TelephoneNumbers" },
    { 0x3a23001f, "PrimaryFaxNumber" },
    { 0x3a1c001f, "MobileTelephoneNumber" },
    { 0x3a2e001f, "AssistantTelephoneNumber" },
    { 0x3a21001f, "PagerTelephoneNumber" },
    { 0x3004001f, "Comment" },
    { 0x3a220102, "UserCertificate" },
    { 0x3a701102, "UserX509Certificate" },
    { 0x8c6a1102, "AddressBookX509Certificate" },
    { 0x8006001e, "AddressBookHomeMessageDatabase" },
    { 0x39ff001e, "AddressBookDisplayNamePrintable" },
    { 0x39050003, "DisplayTypeEx" },
    { 0x8ca00003, "AddressBookSeniorityIndex" },
    { 0x8cd0000b, "AddressBookHierarchicalIsHierarchicalGroup" },
    { 0x8c6d0102, "AddressBookObjectGuid" },
    { 0x8cac101f, "AddressBookSenderHintTranslations" },
    { 0x806a0003, "AddressBookDeliveryContentLength" },
    { 0x8cb5000b, "AddressBookModerationEnabled" },
    { 0x8ce20003, "AddressBookDistributionListMemberCount" },
    { 0x8ce30003, "AddressBookDistributionListExternalMemberCount" },
    { 0x8009101e, "AddressBookMember" },
    { 0x8008101e, "AddressBookIsMemberOfDistributionList" },
    { 0x68051003, "OfflineAddressBookTruncatedProperties" },
    { 0x8c9e0102, "ThumbnailPhoto" },
    { 0x8cc20102, "SpokenName" },
    { 0x8cd8000d, "AddressBookAuthorizedSenders" },
    { 0x8cd9000d, "AddressBookUnauthorizedSenders" },
    { 0x8073000d, "AddressBookDistributionListMemberSubmitAccepted" },
    { 0x8cda000d, "AddressBookDistributionListMemberSubmitRejected" },
    { 0x8cdb000d, "AddressBookDistributionListRejectMessagesFromDLMembers" },
    { 0x8005000d, "AddressBookManager" },
};

enum { NAMED = sizeof named / sizeof *named };

const char *tag_name(uint32_t tag)
{
    size_t i;
    for (i = 0; i < NAMED; i++)
        if (named[i].tag == tag) return named[i].name;
    return NULL;
}

static int read_hex(const char *s, uint32_t *tag)
{
    uint32_t n = 0;
    size_t i;
    if (s[0] == '0' && (s[1] == 'x' || s[1] == 'X')) s += 2;
    for (i = 0; s[i]; i++) {
        int d = hex_digit((unsigned char)s[i]);
        if (d < 0 || i == 8) return 0;
        n = n << 4 | (unsigned)d;
    }
    *tag = n;
    return i == 8;
}

int read_tag(const char *s, uint32_t *tag)
{
    size_t i;
    if (read_hex(s, tag)) return 1;
    if (strncasecmp(s, "PidTag", 6) == 0) s += 6;
    for (i = 0; i < NAMED; i++)
        if (strcasecmp(named[i].name, s) == 0) {
            *tag = named[i].tag;
            return 1;
        }
    return 0;
}
