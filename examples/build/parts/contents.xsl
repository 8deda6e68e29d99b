<?xml version="1.0"?>
<!-- The table of contents, and the links to the pages before and after. -->
<xsl:stylesheet version="1.0" xmlns:xsl="http://www.w3.org/1999/XSL/Transform">
  <xsl:template match="contents">
    <ul class="contents">
      <xsl:apply-templates select="/site/page[@name != 'index']" mode="contents"/>
    </ul>
  </xsl:template>

  <xsl:template match="page" mode="contents">
    <li>
      <a href="{@name}.html"><xsl:value-of select="concat(position(), '. ', @title)"/></a>
      <xsl:if test="section">
        <ul><xsl:apply-templates select="section" mode="contents"/></ul>
      </xsl:if>
    </li>
  </xsl:template>

  <xsl:template match="section" mode="contents">
    <li><a href="{../@name}.html#{@id}"><xsl:value-of select="@title"/></a></li>
  </xsl:template>

  <xsl:template name="neighbours">
    <div class="neighbours">
      <xsl:for-each select="preceding-sibling::page[1]"><a href="{@name}.html"><xsl:value-of select="@title"/></a></xsl:for-each>
      <xsl:text> </xsl:text>
      <xsl:for-each select="following-sibling::page[1]"><a href="{@name}.html"><xsl:value-of select="@title"/></a></xsl:for-each>
    </div>
  </xsl:template>
</xsl:stylesheet>
