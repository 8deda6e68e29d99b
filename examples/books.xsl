<xsl:stylesheet version="1.0" xmlns:xsl="http://www.w3.org/1999/XSL/Transform">
  <xsl:template match="/">
    <ul><xsl:apply-templates select="catalogue/book"/></ul>
  </xsl:template>
  <xsl:template match="book">
    <li id="{@id}"><xsl:value-of select="title"/></li>
  </xsl:template>
  <xsl:template match="book[price &lt; 10]">
    <li id="{@id}" class="cheap"><xsl:value-of select="concat(position(), ' of ', last(), ': ', title)"/></li>
  </xsl:template>
</xsl:stylesheet>
