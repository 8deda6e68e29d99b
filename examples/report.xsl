<xsl:stylesheet version="1.0" xmlns:xsl="http://www.w3.org/1999/XSL/Transform">
  <xsl:output method="text"/>
  <xsl:param name="currency" select="'EUR'"/>
  <xsl:template match="catalogue">
    <xsl:text>Books: </xsl:text>
    <xsl:value-of select="count(book)"/>
    <xsl:for-each select="book">
      <xsl:value-of select="concat('&#10;', title, ', ', price, ' ', $currency)"/>
      <xsl:if test="price &gt; 10">
        <xsl:message><xsl:value-of select="title"/> is dear</xsl:message>
      </xsl:if>
    </xsl:for-each>
    <xsl:text>&#10;</xsl:text>
  </xsl:template>
</xsl:stylesheet>
